//! The port's side: its program (crates/vectors), which takes commands and prints a line for each event that is shown.

use std::io::{BufRead, BufReader, Write};
use std::process::{Child, ChildStdout, Command, Stdio};
use std::sync::mpsc::{Sender, channel};
use std::thread::{self, JoinHandle};

/// The program reads whole blocks of commands, each of three bytes.
const BLOCK: usize = 4095;

/// What a command asks; any other byte in its place is passed over.
#[derive(Clone, Copy)]
pub enum Ask {
    Fresh = 0,
    Show,
    Quietly,
    Try,
    Nothing = 255,
}

pub struct Port {
    child: Child,
    lines: BufReader<ChildStdout>,
    block: Vec<u8>,
    blocks: Sender<Vec<u8>>,
    writer: JoinHandle<()>,
}

impl Port {
    /// Starts the program; the words are those of the command that runs it.
    pub fn start(words: &[String]) -> Port {
        let mut child = Command::new(&words[0])
            .args(&words[1..])
            .stdin(Stdio::piped())
            .stdout(Stdio::piped())
            .spawn()
            .unwrap_or_else(|why| panic!("the port's program does not start: {words:?}: {why}"));
        let mut input = child.stdin.take().expect("its standard input is a pipe");
        let lines = BufReader::with_capacity(1 << 16, child.stdout.take().expect("so is its output"));
        let (blocks, to_write) = channel::<Vec<u8>>();
        // what is sent waits here, so that reading and writing never wait for each other
        let writer = thread::spawn(move || {
            for block in to_write {
                input.write_all(&block).expect("the port's program reads its input");
            }
        });
        Port { child, lines, block: Vec::with_capacity(BLOCK), blocks, writer }
    }

    pub fn ask(&mut self, ask: Ask, code: u8, thread: u8) {
        self.block.extend([ask as u8, code, thread]);
        if self.block.len() == BLOCK {
            let full = std::mem::replace(&mut self.block, Vec::with_capacity(BLOCK));
            self.blocks.send(full).expect("the writer takes blocks");
        }
    }

    /// Sends what has been asked, and the rest of its block.
    pub fn send(&mut self) {
        while !self.block.is_empty() {
            self.ask(Ask::Nothing, 0, 0);
        }
    }

    /// The next line, without its end.
    pub fn line(&mut self, line: &mut String) {
        line.clear();
        let got = self.lines.read_line(line).expect("the port prints text");
        assert!(got > 0, "the port's program ended early");
        line.truncate(line.trim_end_matches('\n').len());
    }

    /// Ends the program's input, and waits for its end.
    pub fn end(mut self) {
        self.send();
        drop(self.blocks);
        self.writer.join().expect("the writer ends");
        let mut rest = String::new();
        let got = self.lines.read_line(&mut rest).expect("the port prints text");
        assert_eq!(got, 0, "the port printed more than was asked: {rest}");
        let status = self.child.wait().expect("the port's program ends");
        assert!(status.success(), "the port's program ended with {status}");
    }
}
