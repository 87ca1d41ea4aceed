//! The whole comparison, with what it prints.

use crate::compare::Comparison;
use crate::coverage::{self, Tally};
use crate::front::Front;
use crate::port::Port;
use crate::schedule::Schedule;
use crate::state::Eye;
use crate::{damage, explore, stage, vectors, walks};
use std::time::Instant;

const SEED: u64 = 1;
/// Events of random schedules, and files.
const RANDOM: u64 = 2_000_000;
const FILES: usize = 300;
/// Fewer events compared than these are a failure.
const LEAST: u64 = 2_000_000;

/// The branches, as a table.
const BRANCHES: &str = include_str!("../branches.txt");

/// How the port's programs are run: the words of the commands.
pub struct Programs {
    pub vectors: Vec<String>,
    pub replay: Vec<String>,
}

/// Prints the first difference: the schedule file that shows it, both lines, and where the Rust's threads stand.
fn report_difference(compared: &Comparison) {
    let Some(first) = &compared.first else { return };
    println!("the first difference: {} threads, event {}", first.schedule.count, first.schedule.events.len() - 1);
    println!("  file  {}", first.schedule.spelled());
    println!("  rust  {}", first.rust);
    println!("  port  {}", first.port);
    let mut front = Front::new(first.schedule.count as usize);
    for &(code, thread) in &first.schedule.events {
        front.event(code, thread);
    }
    for thread in 0..front.count() {
        if let Some(pending) = stage::pending(thread) {
            println!("  rust's thread {thread}: next {:?}, queue.rs line {}", pending.access.kind, pending.line);
        }
    }
}

fn explore(compared: &mut Comparison, tally: &mut Tally, count: u8, full: bool) {
    let (began, before) = (Instant::now(), compared.compared);
    let found = explore::run(compared, count, full);
    println!(
        "threads {count}: {} machines up to renaming, at most {} events deep, {} events compared, {} s",
        found.machines,
        found.deepest,
        compared.compared - before,
        began.elapsed().as_secs()
    );
    tally.check(compared.differences == 0, &format!("the machines of {count} threads: a difference"));
}

fn random(compared: &mut Comparison, tally: &mut Tally) {
    let (began, before) = (Instant::now(), compared.compared);
    let schedules = walks::run(compared, SEED, RANDOM);
    println!(
        "random: {schedules} schedules of 1 to 8 threads, {} events compared, {} s",
        compared.compared - before,
        began.elapsed().as_secs()
    );
    tally.check(compared.differences == 0, "random schedules: a difference");
}

fn files(eye: &Eye, programs: &Programs, tally: &mut Tally) {
    let began = Instant::now();
    let (files, differs) = damage::run(eye, &programs.replay, SEED, FILES);
    println!("files: {files} whole and damaged ones replayed by both, {} s", began.elapsed().as_secs());
    if let Some(bytes) = &differs {
        let spelled: Vec<String> = bytes.iter().take(200).map(|b| format!("{b:02x}")).collect();
        println!("the first that differs: {}", spelled.join(" "));
    }
    tally.check(differs.is_none(), "a file is replayed differently");
}

/// The fixed list that is kept is what the Rust answers.
fn fixed(eye: &Eye, tally: &mut Tally) {
    let kept = |name: &str| std::fs::read(format!("crates/vectors/{name}")).expect("the fixed list is kept");
    let (commands, answers) = (kept("stdin"), kept("stdout"));
    let rust = vectors::answers(eye, &commands);
    println!("fixed list: {} answers", rust.lines().count());
    tally.check(rust.as_bytes() == answers, "the fixed list is not what the Rust answers");
}

/// Everything; answers whether all of it holds.
pub fn run(eye: &Eye, programs: &Programs) -> bool {
    let mut tally = Tally { passed: 0, failed: 0 };
    let mut compared = Comparison::new(eye, Port::start(&programs.vectors));
    println!("queue.rs, sha256 {}, beside the port", env!("QUEUE_SHA256"));
    for count in 1..=3 {
        explore(&mut compared, &mut tally, count, false);
    }
    random(&mut compared, &mut tally);
    report_difference(&compared);
    files(eye, programs, &mut tally);
    fixed(eye, &mut tally);
    coverage::report(&compared.side.met, &eye.places, BRANCHES, &mut tally);
    println!("\n{} events compared, {} different", compared.compared, compared.differences);
    tally.check(compared.compared >= LEAST, "too few events compared");
    compared.port.end();
    println!("{} passed, {} failed", tally.passed, tally.failed);
    tally.failed == 0
}

/// Every machine of `count` threads alone.
pub fn explore_only(eye: &Eye, programs: &Programs, count: u8, full: bool) -> bool {
    let mut tally = Tally { passed: 0, failed: 0 };
    let mut compared = Comparison::new(eye, Port::start(&programs.vectors));
    explore(&mut compared, &mut tally, count, full);
    report_difference(&compared);
    compared.port.end();
    tally.failed == 0
}

/// Random schedules' commands and the Rust's lines for them.
pub fn stream(eye: &Eye, seed: u64, events: usize) -> (Vec<u8>, String) {
    let schedules: Vec<Schedule> = walks::schedules(eye, seed, events);
    let commands = vectors::commands(&schedules);
    let answers = vectors::answers(eye, &commands);
    (commands, answers)
}
