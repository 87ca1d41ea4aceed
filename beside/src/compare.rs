//! The comparison: events go to both sides, and the whole state after each is compared as text. The port answers in
//! batches, so that both sides work at the same time.

use crate::front::{Front, Reply};
use crate::port::{Ask, Port};
use crate::schedule::Schedule;
use crate::side::{Runs, Side};
use crate::state::Eye;
use std::collections::VecDeque;

/// Events in a batch, and batches that may wait for the port.
const BATCH: usize = 5_000;
const AHEAD: usize = 4;

/// The first difference that was seen, and what shows it.
pub struct Difference {
    pub schedule: Schedule,
    pub rust: String,
    pub port: String,
}

#[derive(Default)]
struct Batch {
    schedules: Vec<Schedule>,
    /// for each line that the Rust has: the schedule, how many of its events are run, the line
    lines: Vec<(usize, usize, String)>,
}

pub struct Comparison<'a> {
    pub side: Side<'a>,
    pub port: Port,
    batch: Batch,
    waiting: VecDeque<Batch>,
    pub compared: u64,
    pub differences: u64,
    pub first: Option<Difference>,
}

impl<'a> Comparison<'a> {
    pub fn new(eye: &'a Eye, port: Port) -> Comparison<'a> {
        Comparison {
            side: Side::new(eye),
            port,
            batch: Batch::default(),
            waiting: VecDeque::new(),
            compared: 0,
            differences: 0,
            first: None,
        }
    }

    fn hand_over(&mut self) {
        self.port.send();
        self.waiting.push_back(std::mem::take(&mut self.batch));
        if self.waiting.len() > AHEAD {
            self.settle_one();
        }
    }

    fn settle_one(&mut self) {
        let Some(batch) = self.waiting.pop_front() else { return };
        let mut port = String::new();
        for (schedule, run, rust) in &batch.lines {
            self.port.line(&mut port);
            let shows = || {
                let Schedule { count, events } = &batch.schedules[*schedule];
                Schedule { count: *count, events: events[..*run].to_vec() }
            };
            self.judge(rust, &port, shows);
        }
    }

    /// Counts one state compared, and keeps the first difference.
    pub fn judge(&mut self, rust: &str, port: &str, shows: impl FnOnce() -> Schedule) {
        self.compared += 1;
        if rust == port {
            return;
        }
        self.differences += 1;
        if self.first.is_none() {
            self.first = Some(Difference { schedule: shows(), rust: rust.to_string(), port: port.to_string() });
        }
    }

    /// Waits for every answer that is due.
    pub fn settle(&mut self) {
        self.hand_over();
        while !self.waiting.is_empty() {
            self.settle_one();
        }
    }
}

impl Runs for Comparison<'_> {
    fn fresh(&mut self, count: u8) {
        if self.batch.lines.len() >= BATCH {
            self.hand_over();
        }
        self.side.fresh(count);
        self.port.ask(Ask::Fresh, count, 0);
        self.batch.schedules.push(Schedule { count, events: Vec::new() });
    }

    fn event(&mut self, code: u8, thread: u8) -> Reply {
        let reply = self.side.event(code, thread);
        self.port.ask(Ask::Show, code, thread);
        let schedule = self.batch.schedules.len() - 1;
        let events = &mut self.batch.schedules[schedule].events;
        events.push((code, thread));
        let run = events.len();
        self.batch.lines.push((schedule, run, self.side.line.clone()));
        reply
    }

    fn front(&self) -> &Front {
        &self.side.front
    }
}
