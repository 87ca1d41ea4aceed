//! Document 01's events over the stage: codes, refusals and answers, and what the Rust does not keep itself: whether a
//! thread is in a call, and what it holds.

use crate::stage::{self, Call, Ended, Happened, Kind};

#[derive(Clone, Copy, PartialEq, Eq, Debug)]
pub enum Answer {
    Begun,
    Went,
    Done,
    Yes,
    No,
}

#[derive(Clone, Copy, PartialEq, Eq, Debug)]
pub enum Reply {
    Accepted(Answer, Option<usize>),
    Refused(u8),
    /// the Rust panicked: an assertion of queue.rs does not hold
    Panicked,
}

#[derive(Clone, Copy, PartialEq, Eq, Debug)]
pub enum Holding {
    Nothing,
    Read,
    Write,
}

#[derive(Clone, Copy)]
struct Record {
    call: Option<Call>,
    holding: Holding,
    /// the word after the thread's last access
    word: usize,
}

#[derive(Clone)]
pub struct Front {
    count: usize,
    records: [Record; stage::THREADS],
    /// what the last accepted step's access did
    pub happened: Happened,
}

pub const STEP: u8 = 16;
pub const FAIL: u8 = 17;

fn call_of(code: u8) -> Option<Call> {
    use Call::*;
    [Read, Write, TryRead, TryWrite, ReadUnlock, WriteUnlock, Downgrade].get(code as usize).copied()
}

impl Answer {
    pub fn word(self) -> &'static str {
        match self {
            Answer::Begun => "begun",
            Answer::Went => "went",
            Answer::Done => "done",
            Answer::Yes => "yes",
            Answer::No => "no",
        }
    }
}

impl Front {
    /// A fresh machine of `count` threads.
    pub fn new(count: usize) -> Front {
        stage::reset();
        let idle = Record { call: None, holding: Holding::Nothing, word: 0 };
        Front { count, records: [idle; stage::THREADS], happened: Happened::default() }
    }

    pub fn count(&self) -> usize {
        self.count
    }

    pub fn holding(&self, thread: usize) -> Holding {
        self.records[thread].holding
    }

    pub fn call(&self, thread: usize) -> Option<Call> {
        self.records[thread].call
    }

    pub fn last_word(&self, thread: usize) -> usize {
        self.records[thread].word
    }

    pub fn event(&mut self, code: u8, thread: u8) -> Reply {
        let thread = thread as usize;
        match self.refusal(code, thread) {
            Some(number) => Reply::Refused(number),
            None => match call_of(code) {
                Some(call) => self.begin(thread, call),
                None => self.step(thread, code == FAIL),
            },
        }
    }

    /// Document 01's table, in its order.
    fn refusal(&self, code: u8, thread: usize) -> Option<u8> {
        let call = call_of(code);
        if call.is_none() && code != STEP && code != FAIL {
            return Some(1);
        }
        if thread >= self.count {
            return Some(2);
        }
        match call {
            Some(call) => self.begin_refusal(thread, call),
            None => self.step_refusal(thread, code == FAIL),
        }
    }

    fn begin_refusal(&self, thread: usize, call: Call) -> Option<u8> {
        if self.records[thread].call.is_some() {
            return Some(3);
        }
        let wanted = match call {
            Call::Read | Call::Write | Call::TryRead | Call::TryWrite => Holding::Nothing,
            Call::ReadUnlock => Holding::Read,
            Call::WriteUnlock | Call::Downgrade => Holding::Write,
        };
        (self.records[thread].holding != wanted).then_some(4)
    }

    fn step_refusal(&self, thread: usize, fails: bool) -> Option<u8> {
        let Some(pending) = stage::pending(thread) else { return Some(5) };
        match pending.access.kind {
            Kind::Park if !fails && !stage::token(thread) => Some(6),
            Kind::Park | Kind::WeakCompare => None,
            _ if fails => Some(7),
            _ => None,
        }
    }

    fn begin(&mut self, thread: usize, call: Call) -> Reply {
        stage::begin(thread, call);
        self.records[thread].call = Some(call);
        assert!(stage::pending(thread).is_some(), "every call makes an access");
        Reply::Accepted(Answer::Begun, None)
    }

    fn step(&mut self, thread: usize, fails: bool) -> Reply {
        let call = self.records[thread].call.expect("a thread with a next access is in a call");
        self.happened = stage::step(thread, fails);
        self.records[thread].word = stage::word();
        self.released(thread, call);
        let answer = match stage::ended(thread) {
            None => Answer::Went,
            Some(Ended::Panicked) => return Reply::Panicked,
            Some(Ended::Returned(granted)) => self.returned(thread, call, granted),
        };
        Reply::Accepted(answer, self.happened.woken)
    }

    /// A release is at the access that changes the word, or at a contended reader's subtraction; a downgrade's holder is
    /// a reader from its successful compare on.
    fn released(&mut self, thread: usize, call: Call) {
        let changed = self.happened.compared == Some(true);
        let record = &mut self.records[thread];
        match call {
            Call::ReadUnlock if changed || self.happened.subtracted => record.holding = Holding::Nothing,
            Call::WriteUnlock if changed => record.holding = Holding::Nothing,
            Call::Downgrade if changed => record.holding = Holding::Read,
            _ => {}
        }
    }

    /// The Rust grants at the access after which the call returns.
    fn returned(&mut self, thread: usize, call: Call, granted: bool) -> Answer {
        let record = &mut self.records[thread];
        record.call = None;
        let (holding, answer) = match call {
            Call::Read => (Holding::Read, Answer::Done),
            Call::Write => (Holding::Write, Answer::Done),
            Call::TryRead => (Holding::Read, Answer::Yes),
            Call::TryWrite => (Holding::Write, Answer::Yes),
            Call::ReadUnlock | Call::WriteUnlock | Call::Downgrade => return Answer::Done,
        };
        if !granted {
            return Answer::No;
        }
        record.holding = holding;
        answer
    }
}
