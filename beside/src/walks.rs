//! Random schedules, biased to what is rare: contention, downgrades, tries, failed compares, waits that end for no cause.

use crate::compare::Comparison;
use crate::front::{FAIL, Front, Holding, Reply, STEP};
use crate::met::Branch;
use crate::random::Random;
use crate::schedule::{LIMIT, Schedule};
use crate::side::{Runs, Side};
use crate::stage::{self, Kind, THREADS};
use crate::state::Eye;
use std::collections::HashMap;

/// A branch that a list of schedules takes less often than this is looked for.
const FEW: u64 = 3;

/// How one schedule leans; each is "once in so many".
struct Lean {
    stay: u64,
    spurious: u64,
    writes: u64,
    tries: u64,
    downgrades: u64,
    strange: u64,
}

impl Lean {
    fn new(random: &mut Random) -> Lean {
        let mut pick = |choices: &[u64]| choices[random.below(choices.len() as u64) as usize];
        Lean {
            stay: pick(&[1, 2, 2, 8]),
            spurious: pick(&[3, 10, 100]),
            writes: pick(&[1, 2, 2, 5]),
            tries: pick(&[2, 8, 30]),
            downgrades: pick(&[1, 2, 4]),
            strange: pick(&[20, 200, 2000]),
        }
    }

    fn begin(&self, random: &mut Random, holding: Holding) -> u8 {
        match holding {
            Holding::Read => 4,
            Holding::Write if random.once_in(self.downgrades) => 6,
            Holding::Write => 5,
            Holding::Nothing => random.once_in(self.writes) as u8 + 2 * random.once_in(self.tries) as u8,
        }
    }

    fn code(&self, random: &mut Random, front: &Front, thread: usize) -> u8 {
        let Some(pending) = stage::pending(thread) else { return self.begin(random, front.holding(thread)) };
        match pending.access.kind {
            Kind::WeakCompare if random.once_in(self.spurious) => FAIL,
            Kind::Park if random.once_in(self.spurious) => FAIL,
            // refused at any other access
            _ if random.once_in(8 * self.spurious) => FAIL,
            _ => STEP,
        }
    }
}

/// Is the thread asleep with nothing that wakes it? A step would be refused.
fn asleep(thread: usize) -> bool {
    stage::pending(thread).is_some_and(|p| p.access.kind == Kind::Park) && !stage::token(thread)
}

fn strange(random: &mut Random) -> (u8, u8) {
    let code =
        if random.once_in(3) { random.next() as u8 } else { [0, 1, 2, 3, 4, 5, 6, 16, 17][random.below(9) as usize] };
    (code, random.below(THREADS as u64 + 2) as u8)
}

/// One schedule: `count` threads, `length` events.
pub fn walk(on: &mut impl Runs, random: &mut Random, count: u8, length: usize) {
    let lean = Lean::new(random);
    let mut thread = 0;
    on.fresh(count);
    for _ in 0..length {
        if !random.once_in(lean.stay) || asleep(thread) {
            thread = random.below(count as u64) as usize;
        }
        let (code, at) = if random.once_in(lean.strange) {
            strange(random)
        } else {
            // one asleep is passed over, most of the time
            for _ in 0..8 {
                if asleep(thread) {
                    thread = random.below(count as u64) as usize;
                }
            }
            (lean.code(random, on.front(), thread), thread as u8)
        };
        on.event(code, at);
    }
}

/// From 20 events to as many as a file may have, short ones more often.
fn length(random: &mut Random) -> usize {
    let longest = [50, 200, 1_000, 5_000, LIMIT as u64][random.below(5) as usize];
    20 + random.below(longest - 19) as usize
}

/// Random schedules until so many events are compared.
pub fn run(compared: &mut Comparison, seed: u64, events: u64) -> u64 {
    let mut random = Random(seed);
    let (mut schedules, mut done) = (0, 0);
    while done < events {
        let count = 1 + random.below(THREADS as u64) as u8;
        let length = length(&mut random);
        walk(compared, &mut random, count, length);
        schedules += 1;
        done += length as u64;
    }
    compared.settle();
    schedules
}

/// Random schedules of so many events in all, of which each takes a branch that few before it took.
pub fn schedules(eye: &Eye, seed: u64, events: usize) -> Vec<Schedule> {
    let mut random = Random(seed);
    let mut kept = Kept { side: Side::new(eye), list: Vec::new(), branches: Vec::new(), refused: true };
    let mut times: HashMap<Branch, u64> = HashMap::new();
    let (mut list, mut total) = (Vec::new(), 0);
    while total < events {
        let count = 2 + random.below(4) as u8;
        walk(&mut kept, &mut random, count, 100);
        let schedule = kept.list.pop().expect("the one schedule of the walk");
        if kept.branches.iter().any(|b| times.get(b).is_none_or(|&t| t < FEW)) {
            kept.branches.iter().for_each(|b| *times.entry(*b).or_default() += 1);
            total += schedule.events.len();
            list.push(schedule);
        }
        kept.branches.clear();
    }
    list
}

/// The Rust's side, and the events that it was given: all, or those that it accepted.
pub struct Kept<'a> {
    pub side: Side<'a>,
    pub list: Vec<Schedule>,
    pub branches: Vec<Branch>,
    pub refused: bool,
}

impl Runs for Kept<'_> {
    fn fresh(&mut self, count: u8) {
        self.side.fresh(count);
        self.list.push(Schedule { count, events: Vec::new() });
    }

    fn event(&mut self, code: u8, thread: u8) -> Reply {
        let reply = self.side.event(code, thread);
        let accepted = matches!(reply, Reply::Accepted(..));
        if let Some(last) = self.list.last_mut().filter(|_| accepted || self.refused) {
            last.events.push((code, thread));
        }
        self.branches.extend(self.side.branch);
        reply
    }

    fn front(&self) -> &Front {
        self.side.front()
    }
}
