//! How often each place, outcome and branch was met. A branch is where a thread stood and went: its call, the place, what
//! its compare or park came to, and the place after it, or the answer that ended the call. branches.txt lists them all.

use crate::front::{Front, Holding, Reply};
use crate::places::Places;
use crate::stage::{self, Call, Happened, Kind, Pending};
use crate::state::Eye;
use std::collections::{BTreeMap, HashMap};

/// The word's flags, and a reader in it.
const LOCKED: u64 = 1;
const QUEUED: u64 = 2;
const DOWNGRADED: u64 = 8;
const SINGLE: u64 = 16;

#[derive(Default)]
pub struct Met {
    places: BTreeMap<u64, u64>,
    branches: HashMap<Branch, u64>,
    refusals: [u64; 9],
}

/// As numbers, since one is made for each event: call, place with its case, outcome, place after with its case.
#[derive(Clone, Copy, PartialEq, Eq, Hash)]
pub struct Branch {
    call: &'static str,
    from: Spot,
    outcome: &'static str,
    to: Spot,
}

#[derive(Clone, Copy, PartialEq, Eq, Hash)]
enum Spot {
    Answer(&'static str),
    /// the place, and which of its lines where it has several, from 1
    Place(u64, Option<usize>),
    /// a registration: the queue's first, or a later one
    Register(u64, bool),
}

impl Spot {
    fn of(eye: &Eye, pending: &Pending) -> Spot {
        let Some(number) = eye.places.number(pending.line, pending.access.kind) else {
            return Spot::Place(u64::MAX, Some(pending.line as usize));
        };
        if number == eye.register {
            return Spot::Register(number, eye.nodes.word(pending.access.operand) & QUEUED == 0);
        }
        let lines = &eye.places.list[number as usize].lines;
        let which = lines.iter().position(|&line| line == pending.line).map(|at| at + 1);
        Spot::Place(number, which.filter(|_| lines.len() > 1))
    }

    fn name(self, places: &Places) -> String {
        let place = |n: u64| places.list.get(n as usize).map_or("nowhere", |p| p.name.as_str());
        match self {
            Spot::Answer(word) => word.to_string(),
            Spot::Place(n, None) => place(n).to_string(),
            Spot::Place(n, Some(which)) => format!("{} {which}", place(n)),
            Spot::Register(n, true) => format!("{} first", place(n)),
            Spot::Register(n, false) => format!("{} later", place(n)),
        }
    }
}

impl Branch {
    pub fn row(&self, places: &Places) -> [String; 4] {
        [self.call.into(), self.from.name(places), self.outcome.into(), self.to.name(places)]
    }
}

fn call_name(call: Option<Call>, holding: Holding) -> &'static str {
    match call.expect("a step is made in a call") {
        Call::Read => "read",
        Call::Write => "write",
        Call::TryRead => "try_read",
        Call::TryWrite => "try_write",
        Call::ReadUnlock if holding == Holding::Read => "read_unlock",
        Call::ReadUnlock => "last_reader",
        Call::WriteUnlock => "write_unlock",
        Call::Downgrade => "downgrade",
    }
}

/// What a compare that succeeded made of the word.
fn same(word: u64) -> &'static str {
    match word {
        0 => "same free",
        _ if word & QUEUED == 0 && word < SINGLE => "same writer",
        _ if word & QUEUED == 0 => "same readers",
        _ if word & DOWNGRADED != 0 => "same waiters downgraded",
        _ if word & LOCKED != 0 => "same waiters locked",
        _ => "same waiters free",
    }
}

/// Where a thread stands before a step.
pub struct Before {
    call: &'static str,
    from: Spot,
    kind: Kind,
    thread: usize,
    token: bool,
    /// has the word changed since the thread's last access, and is its newest waiter another than a compare expects?
    moved: bool,
    other_head: bool,
}

impl Before {
    pub fn of(eye: &Eye, front: &Front, thread: usize) -> Option<Before> {
        let pending = stage::pending(thread)?;
        let call = call_name(front.call(thread), front.holding(thread));
        let (token, moved) = (stage::token(thread), front.last_word(thread) != stage::word());
        let other_head = eye.nodes.number(pending.access.operand) != eye.nodes.number(stage::word());
        let (from, kind) = (Spot::of(eye, &pending), pending.access.kind);
        Some(Before { call, from, kind, thread, token, moved, other_head })
    }

    /// What the access came to.
    fn outcome(&self, eye: &Eye, fails: bool, happened: &Happened) -> &'static str {
        match (self.kind, fails, happened.compared) {
            (Kind::Park, true, _) if self.token => "no cause with a token",
            (_, true, _) => "no cause",
            (Kind::Park, ..) => "token",
            (Kind::Complete, ..) if happened.woken == Some(self.thread) => "itself",
            (_, _, Some(false)) if self.other_head && self.at(eye.split) => "another head",
            (_, _, Some(false)) => "another",
            (_, _, Some(true)) => same(eye.nodes.word(stage::word())),
            (_, _, None) if self.moved && self.at(eye.restore) => "moved on",
            (_, _, None) => "-",
        }
    }

    fn at(&self, place: u64) -> bool {
        self.from == Spot::Place(place, None)
    }

    /// The branch that an accepted step took from here.
    pub fn led_to(&self, eye: &Eye, front: &Front, fails: bool, reply: Reply) -> Branch {
        let to = match (stage::pending(self.thread), reply) {
            (Some(pending), _) => Spot::of(eye, &pending),
            (None, Reply::Accepted(answer, _)) => Spot::Answer(answer.word()),
            (None, _) => Spot::Answer("panicked"),
        };
        let outcome = self.outcome(eye, fails, &front.happened);
        Branch { call: self.call, from: self.from, outcome, to }
    }
}

impl Met {
    pub fn refused(&mut self, number: u8) {
        self.refusals[number as usize] += 1;
    }

    pub fn stepped(&mut self, branch: Branch) {
        *self.branches.entry(branch).or_default() += 1;
        if let Spot::Place(n, _) | Spot::Register(n, _) = branch.from {
            *self.places.entry(n).or_default() += 1;
        }
    }

    /// The branches that were met, as rows of branches.txt.
    pub fn rows(&self, places: &Places) -> BTreeMap<[String; 4], u64> {
        self.branches.iter().map(|(branch, &times)| (branch.row(places), times)).collect()
    }

    pub fn place(&self, number: usize) -> u64 {
        self.places.get(&(number as u64)).copied().unwrap_or(0)
    }

    pub fn refusal(&self, number: usize) -> u64 {
        self.refusals[number]
    }
}
