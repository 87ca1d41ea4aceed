//! Schedule files, whole and damaged, replayed by both sides' programs: what they print is compared as text.

use crate::random::Random;
use crate::replay;
use crate::schedule::{LIMIT, Schedule};
use crate::side::Side;
use crate::stage::THREADS;
use crate::state::Eye;
use crate::walks::{self, Kept};
use std::io::Write;
use std::process::{Command, Stdio};

/// What the port's replay program prints of a file on its standard input.
fn port_prints(words: &[String], bytes: &[u8]) -> String {
    let mut child = Command::new(&words[0])
        .args(&words[1..])
        .stdin(Stdio::piped())
        .stdout(Stdio::piped())
        .spawn()
        .unwrap_or_else(|why| panic!("the port's replay does not start: {words:?}: {why}"));
    let mut input = child.stdin.take().expect("its standard input is a pipe");
    let file = bytes.to_vec();
    // a refused file may be left unread
    let writer = std::thread::spawn(move || input.write_all(&file).ok());
    let output = child.wait_with_output().expect("the replay ends");
    writer.join().expect("the writer ends");
    String::from_utf8(output.stdout).expect("the replay prints text")
}

/// A schedule that is accepted to its end.
fn good(eye: &Eye, random: &mut Random, length: usize) -> Schedule {
    let mut kept = Kept { side: Side::new(eye), list: Vec::new(), branches: Vec::new(), refused: false };
    let count = 1 + random.below(THREADS as u64) as u8;
    walks::walk(&mut kept, random, count, length);
    kept.list.pop().expect("the one schedule of the walk")
}

/// One byte changed, one lost, one more; a head that does not fit; events in another order.
fn damaged(random: &mut Random, schedule: &Schedule) -> Vec<u8> {
    let mut bytes = schedule.bytes();
    let at = random.below(bytes.len() as u64) as usize;
    match random.below(8) {
        0 => bytes[at] = random.next() as u8,
        1 => bytes[at] ^= 1 << random.below(8),
        2 => drop(bytes.remove(at)),
        3 => bytes.insert(at, random.next() as u8),
        4 => bytes.truncate(at),
        5 => bytes[5] = random.below(12) as u8,
        6 => bytes[random.below(6) as usize] = random.next() as u8,
        _ => {
            let other = 6 + random.below(bytes.len() as u64 - 6) as usize;
            bytes.swap(at.max(6), other);
        }
    }
    bytes
}

/// Files on both sides of each limit.
fn edges(eye: &Eye) -> Vec<Vec<u8>> {
    let long = |events: usize| Schedule { count: 8, events: [(3, 0), (16, 0), (5, 0), (16, 0)].repeat(events / 4) };
    let mut files: Vec<Vec<u8>> =
        (0..=9).map(|count| Schedule { count, events: vec![(3, 0), (16, 0)] }.bytes()).collect();
    files.extend((0..=7).map(|size| vec![1, 0, 0, 0, 1, 1, 0][..size.min(7)].to_vec()));
    files.push(long(LIMIT).bytes());
    files.push(long(LIMIT + 4).bytes());
    files.push([long(LIMIT).bytes(), vec![0]].concat());
    files.push(good(eye, &mut Random(7), LIMIT).bytes());
    files
}

/// Replays `files` whole and damaged files on both sides: how many, and the first that differs.
pub fn run(eye: &Eye, words: &[String], seed: u64, files: usize) -> (usize, Option<Vec<u8>>) {
    let mut random = Random(seed);
    let mut all = edges(eye);
    while all.len() < files {
        let length = 20 + random.below(180) as usize;
        let schedule = good(eye, &mut random, length);
        all.push(schedule.bytes());
        all.extend((0..4).map(|_| damaged(&mut random, &schedule)));
    }
    let differs = |bytes: &&Vec<u8>| port_prints(words, bytes) != replay::printed(eye, bytes, false);
    (all.len(), all.iter().find(differs).cloned())
}
