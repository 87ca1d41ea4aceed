//! The fixed list: short schedules that together take every branch of queue.rs, with the Rust's line for each event. It
//! is kept as what the port's program reads and must print (crates/vectors/stdin and stdout), and the gate runs it.

use crate::front::{FAIL, Front, Reply, STEP};
use crate::met::Branch;
use crate::port::Ask;
use crate::random::Random;
use crate::schedule::Schedule;
use crate::side::{Runs, Side};
use crate::state::Eye;
use crate::walks;
use std::collections::HashMap;

/// Random schedules that are looked through, and their length.
const LOOKED_AT: usize = 100_000;
const LENGTH: usize = 120;

/// The shortest beginning of a schedule that takes each branch.
struct Shortest<'a> {
    side: Side<'a>,
    now: Schedule,
    found: HashMap<Branch, Schedule>,
}

impl Runs for Shortest<'_> {
    fn fresh(&mut self, count: u8) {
        self.side.fresh(count);
        self.now = Schedule { count, events: Vec::new() };
    }

    fn event(&mut self, code: u8, thread: u8) -> Reply {
        let reply = self.side.event(code, thread);
        self.now.events.push((code, thread));
        if let Some(branch) = self.side.branch
            && self.found.get(&branch).is_none_or(|s| s.events.len() > self.now.events.len())
        {
            self.found.insert(branch, self.now.clone());
        }
        reply
    }

    fn front(&self) -> &Front {
        self.side.front()
    }
}

/// Does the schedule, run with its refused events left out, end by taking the branch?
fn ends_with(side: &mut Side, schedule: &Schedule, branch: Branch) -> bool {
    side.fresh(schedule.count);
    side.branch = None;
    for &(code, thread) in &schedule.events {
        side.event(code, thread);
    }
    side.branch == Some(branch)
}

/// Leaves out events, runs of them first, as long as the branch is still taken at the end.
fn shrunk(side: &mut Side, mut schedule: Schedule, branch: Branch) -> Schedule {
    let mut run = schedule.events.len() / 2;
    while run > 0 {
        let mut at = 0;
        while at + run <= schedule.events.len() {
            let mut shorter = schedule.clone();
            shorter.events.drain(at..at + run);
            if ends_with(side, &shorter, branch) {
                schedule = shorter;
            } else {
                at += run;
            }
        }
        run /= 2;
    }
    schedule
}

fn taken(side: &mut Side, schedule: &Schedule) -> Vec<Branch> {
    side.fresh(schedule.count);
    let branch = |&(code, thread): &(u8, u8)| {
        side.event(code, thread);
        side.branch
    };
    schedule.events.iter().filter_map(branch).collect()
}

/// Each refusal from 1 to 7, with code 17 at a load, a fetch-or, a strong compare, a store, a completion and a subtraction.
fn refusals() -> Vec<Schedule> {
    let (steps, fail) = (|n: usize, thread: u8| vec![(STEP, thread); n], |thread: u8| vec![(FAIL, thread)]);
    let strange = vec![(7, 0), (255, 9), (0, 2), (16, 0), (17, 1), (4, 0), (5, 1), (6, 0), (1, 0), (0, 0)];
    let held = [strange, fail(0), steps(1, 0), vec![(0, 0), (4, 0), (0, 1)], fail(1), steps(10, 1)].concat();
    let parked = [held, steps(2, 1), fail(1), steps(1, 1)].concat();
    let released =
        [parked.clone(), vec![(5, 0)], fail(0), steps(3, 0), fail(0), steps(3, 0), fail(0), steps(1, 0)].concat();
    let downgraded = [parked, vec![(6, 0)], fail(0), steps(1, 0)].concat();
    let contended =
        [vec![(0, 0)], steps(2, 0), vec![(1, 1)], steps(11, 1), vec![(4, 0)], steps(3, 0), fail(0), steps(3, 0)];
    [released, downgraded, contended.concat()].map(|events| Schedule { count: 2, events }).to_vec()
}

/// Schedules that take every branch that was found, longest ones first chosen, each short.
pub fn chosen(eye: &Eye, seed: u64) -> Vec<Schedule> {
    let mut random = Random(seed);
    let mut shortest = Shortest { side: Side::new(eye), now: Schedule::default(), found: HashMap::new() };
    for _ in 0..LOOKED_AT {
        let count = 2 + random.below(4) as u8;
        walks::walk(&mut shortest, &mut random, count, LENGTH);
    }
    let mut side = shortest.side;
    let mut found: Vec<(Branch, Schedule)> = shortest.found.into_iter().collect();
    found.sort_by_key(|(branch, schedule)| (std::cmp::Reverse(schedule.events.len()), branch.row(&eye.places)));
    let mut list = refusals();
    let mut covered: Vec<Branch> = list.iter().flat_map(|schedule| taken(&mut side, schedule)).collect();
    for (branch, schedule) in found {
        if !covered.contains(&branch) {
            let schedule = shrunk(&mut side, schedule, branch);
            covered.extend(taken(&mut side, &schedule));
            list.push(schedule);
        }
    }
    needed(&mut side, list)
}

/// Without the schedules, but for the refusals, whose branches the others take.
fn needed(side: &mut Side, mut list: Vec<Schedule>) -> Vec<Schedule> {
    let mut times: HashMap<Branch, u64> = HashMap::new();
    for schedule in &list {
        taken(side, schedule).into_iter().for_each(|branch| *times.entry(branch).or_default() += 1);
    }
    let first = refusals().len();
    for at in (first..list.len()).rev() {
        let mut fewer = times.clone();
        taken(side, &list[at]).iter().for_each(|branch| *fewer.entry(*branch).or_default() -= 1);
        if fewer.values().all(|&n| n > 0) {
            times = fewer;
            list.remove(at);
        }
    }
    list
}

/// The commands of a list of schedules, for the port's program.
pub fn commands(list: &[Schedule]) -> Vec<u8> {
    let mut bytes = Vec::new();
    for schedule in list {
        bytes.extend([Ask::Fresh as u8, schedule.count, 0]);
        bytes.extend(schedule.events.iter().flat_map(|&(code, thread)| [Ask::Show as u8, code, thread]));
    }
    bytes
}

/// The Rust's lines for commands.
pub fn answers(eye: &Eye, commands: &[u8]) -> String {
    let mut side = Side::new(eye);
    let mut text = String::new();
    for command in commands.chunks_exact(3) {
        if command[0] == Ask::Fresh as u8 {
            side.fresh(command[1]);
        } else {
            side.event(command[1], command[2]);
            text.push_str(&side.line);
            text.push('\n');
        }
    }
    text
}
