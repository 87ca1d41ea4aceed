//! The whole state of the Rust's side after an event, as the line that the port prints of its own (docs/BESIDE.md).

use crate::front::{Front, Reply};
use crate::nodes::Nodes;
use crate::places::Places;
use crate::stage::{self, Kind, Pending};
use std::fmt::Write;

/// The word's and the token's place among the locations; a node's fields have theirs (nodes::Field).
const WORD: u64 = 1;
const TOKEN: u64 = 6;

pub struct Eye {
    pub nodes: Nodes,
    pub places: Places,
    pub register: u64,
    pub split: u64,
    pub restore: u64,
}

impl Eye {
    pub fn new(nodes: Nodes, places: Places) -> Eye {
        let [register, split, restore] = ["RegisterCas", "SplitCas", "SplitRestore"].map(|name| places.named(name));
        Eye { nodes, places, register, split, restore }
    }

    /// The place of the thread's next access: that of its line and kind. None has the number after the last.
    pub fn place(&self, thread: usize) -> u64 {
        match stage::pending(thread) {
            None => 0,
            Some(p) => self.places.number(p.line, p.access.kind).unwrap_or(self.places.list.len() as u64),
        }
    }

    /// Is the thread's node filled: does it go to register it, or is it registered?
    pub fn filled(&self, thread: usize) -> bool {
        stage::registered(thread) || self.place(thread) == self.register
    }

    fn location(&self, thread: usize, pending: &Pending) -> (u64, u64) {
        let address = pending.access.address;
        if pending.access.kind == Kind::Park {
            return (TOKEN, thread as u64);
        }
        if address == stage::word_address() {
            return (WORD, 0);
        }
        let (node, field) = self.nodes.field(address);
        (field as u64, node)
    }

    fn operand(&self, pending: &Pending) -> u64 {
        match pending.access.kind {
            Kind::WeakCompare => self.nodes.word(pending.access.operand),
            Kind::Store => self.nodes.number(pending.access.operand),
            _ => 0,
        }
    }

    fn thread(&self, line: &mut String, front: &Front, thread: usize) {
        let pending = stage::pending(thread);
        let kind = pending.map_or(0, |p| p.access.kind as u64);
        let (location, number) = pending.map_or((0, 0), |p| self.location(thread, &p));
        let operand = pending.map_or(0, |p| self.operand(&p));
        let (token, holding) = (stage::token(thread) as u64, front.holding(thread) as u64);
        let place = self.place(thread);
        put(line, &[token, holding, place, kind, location, number, operand]);
        if self.filled(thread) {
            put(line, &self.nodes.fields(thread));
        }
    }

    /// The reply, the word, and each thread with its next access and its node.
    pub fn line(&self, front: &Front, reply: Reply, line: &mut String) {
        line.clear();
        match reply {
            Reply::Accepted(answer, None) => write!(line, "{} -", answer.word()),
            Reply::Accepted(answer, Some(woken)) => write!(line, "{} {woken}", answer.word()),
            Reply::Refused(number) => write!(line, "refused {number}"),
            Reply::Panicked => write!(line, "panicked"),
        }
        .expect("a string takes text");
        put(line, &[self.nodes.word(stage::word())]);
        for thread in 0..front.count() {
            line.push_str(" |");
            self.thread(line, front, thread);
        }
    }
}

fn put(line: &mut String, numbers: &[u64]) {
    for &number in numbers {
        line.push(' ');
        if number < 10 {
            line.push((b'0' + number as u8) as char);
        } else {
            write!(line, "{number}").expect("a string takes text");
        }
    }
}
