//! queue.rs itself, unchanged, under a scheduler, beside the port: the same schedules on both, compared after every event.
#![feature(ptr_mask)]

macro_rules! rtabort {
    ($($words:tt)*) => {{
        eprintln!("rtabort: {}", format_args!($($words)*));
        std::process::abort()
    }};
}

// What queue.rs imports of `crate`: the library's own where that touches nothing shared, the stage's else.
pub use std::{cell, hint, mem, ptr};
mod sync;
mod thread;

include!(concat!(env!("OUT_DIR"), "/mount.rs"));

mod caller;
mod compare;
mod context;
mod coverage;
mod damage;
mod explore;
mod front;
mod met;
mod nodes;
mod places;
mod port;
mod random;
mod replay;
mod schedule;
mod side;
mod stage;
mod state;
mod vectors;
mod walks;
mod whole;

use std::fs;
use std::process::ExitCode;
use whole::Programs;

const USAGE: &str =
    "in the repository's folder, one of the following; PLACES is the table of places, docs/PLACES.md unless it is set
  beside compare                          everything; VECTORS and REPLAY are the commands of the port's programs
  beside explore THREADS [full]           every machine of so many threads
  beside replay FILE [states]             document 01's lines by queue.rs; the whole state after each
  beside vectors                          make the fixed list anew
  beside stream SEED EVENTS FOLDER        random schedules, as the port's program takes them, and the Rust's answers";

fn words(variable: &str) -> Vec<String> {
    let command =
        std::env::var(variable).unwrap_or_else(|_| panic!("{variable} is the command of a program of the port"));
    command.split_whitespace().map(String::from).collect()
}

fn programs() -> Programs {
    Programs { vectors: words("VECTORS"), replay: words("REPLAY") }
}

fn write_list(folder: &str, commands: &[u8], answers: &str) {
    fs::write(format!("{folder}/stdin"), commands).expect("the commands are written");
    fs::write(format!("{folder}/stdout"), answers).expect("the answers are written");
}

fn obey(arguments: &[&str]) -> bool {
    stage::set_up();
    let places = std::env::var("PLACES").unwrap_or("docs/PLACES.md".into());
    let table = fs::read_to_string(&places).unwrap_or_else(|why| panic!("the table of places, {places}: {why}"));
    let eye = state::Eye::new(nodes::Nodes::found(), places::Places::read(&table));
    match arguments {
        ["compare"] => return whole::run(&eye, &programs()),
        ["explore", count] => return whole::explore_only(&eye, &programs(), count.parse().expect("a number"), false),
        ["explore", count, "full"] => {
            return whole::explore_only(&eye, &programs(), count.parse().expect("a number"), true);
        }
        ["replay", file] => print!("{}", replay::printed(&eye, &fs::read(file).expect("a file"), false)),
        ["replay", file, "states"] => print!("{}", replay::printed(&eye, &fs::read(file).expect("a file"), true)),
        ["vectors"] => {
            let commands = vectors::commands(&vectors::chosen(&eye, 1));
            write_list("crates/vectors", &commands, &vectors::answers(&eye, &commands));
        }
        ["stream", seed, events, folder] => {
            let (seed, events) = (seed.parse().expect("a number"), events.parse().expect("a number"));
            let (commands, answers) = whole::stream(&eye, seed, events);
            write_list(folder, &commands, &answers);
        }
        _ => {
            eprintln!("{USAGE}");
            return false;
        }
    }
    true
}

fn main() -> ExitCode {
    let arguments: Vec<String> = std::env::args().skip(1).collect();
    let arguments: Vec<&str> = arguments.iter().map(String::as_str).collect();
    if obey(&arguments) { ExitCode::SUCCESS } else { ExitCode::FAILURE }
}
