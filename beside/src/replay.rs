//! A schedule file replayed on the Rust, with document 01's lines; on request, the whole state after each.

use crate::front::{Front, Reply};
use crate::schedule::Schedule;
use crate::stage;
use crate::state::Eye;
use std::fmt::Write;

fn event_line(eye: &Eye, at: usize, thread: u8, reply: Reply) -> Result<String, String> {
    let word = eye.nodes.word(stage::word());
    match reply {
        Reply::Accepted(answer, None) => Ok(format!("{at} {thread} {} - {word}", answer.word())),
        Reply::Accepted(answer, Some(woken)) => Ok(format!("{at} {thread} {} {woken} {word}", answer.word())),
        Reply::Refused(number) => Err(format!("refused {number}")),
        Reply::Panicked => Err("panicked".to_string()),
    }
}

/// What a replay of the file prints.
pub fn printed(eye: &Eye, bytes: &[u8], states: bool) -> String {
    let mut text = String::new();
    let schedule = match Schedule::read(bytes) {
        Ok(schedule) => schedule,
        Err(number) => return format!("refused {number}\n"),
    };
    let mut front = Front::new(schedule.count as usize);
    let mut line = String::new();
    for (at, &(code, thread)) in schedule.events.iter().enumerate() {
        let reply = front.event(code, thread);
        match event_line(eye, at, thread, reply) {
            Ok(event) => writeln!(text, "{event}").expect("a string takes text"),
            Err(end) => return text + &end + "\n",
        }
        if states {
            eye.line(&front, reply, &mut line);
            writeln!(text, "    {line}").expect("a string takes text");
        }
    }
    text + &format!("end {}\n", schedule.events.len())
}
