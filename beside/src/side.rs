//! The Rust's side of a run: events on the stage, what they met, and the line of the state after each.

use crate::front::{FAIL, Front, Reply, STEP};
use crate::met::{Before, Branch, Met};
use crate::state::Eye;

/// Something that a schedule can be run on.
pub trait Runs {
    /// A fresh machine.
    fn fresh(&mut self, count: u8);
    fn event(&mut self, code: u8, thread: u8) -> Reply;
    fn front(&self) -> &Front;
}

pub struct Side<'a> {
    pub eye: &'a Eye,
    pub front: Front,
    pub met: Met,
    /// the branch of the last event, if it was a step that was accepted
    pub branch: Option<Branch>,
    /// the line of the state after it
    pub line: String,
}

impl<'a> Side<'a> {
    pub fn new(eye: &'a Eye) -> Side<'a> {
        Side { eye, front: Front::new(1), met: Met::default(), branch: None, line: String::new() }
    }

    fn count(&mut self, code: u8, thread: u8) -> Reply {
        let before = match code {
            STEP | FAIL if (thread as usize) < self.front.count() => Before::of(self.eye, &self.front, thread as usize),
            _ => None,
        };
        let reply = self.front.event(code, thread);
        self.branch = None;
        match (reply, before) {
            (Reply::Refused(number), _) => self.met.refused(number),
            (_, Some(before)) => {
                let branch = before.led_to(self.eye, &self.front, code == FAIL, reply);
                self.met.stepped(branch);
                self.branch = Some(branch);
            }
            _ => {}
        }
        reply
    }
}

impl Runs for Side<'_> {
    fn fresh(&mut self, count: u8) {
        self.front = Front::new(count as usize);
    }

    fn event(&mut self, code: u8, thread: u8) -> Reply {
        let reply = self.count(code, thread);
        self.eye.line(&self.front, reply, &mut self.line);
        reply
    }

    fn front(&self) -> &Front {
        &self.front
    }
}
