//! The line of queue.rs that makes an access. `#[track_caller]` gives it, but for the links: their accesses stand in
//! `AtomicLink::get` and `set`, and the line wanted is the caller's. The debug information has it; it is looked up once
//! for each chain of return addresses.

use std::backtrace::Backtrace;
use std::collections::HashMap;
use std::ops::Range;

/// As many frames as lie between an access and the caller of `AtomicLink::get` where nothing is inlined, and one more.
const DEPTH: usize = 6;

type Chain = [usize; DEPTH];

#[derive(Default)]
pub struct Lines(HashMap<Chain, u32>);

fn frame_pointer() -> usize {
    let frame: usize;
    #[cfg(target_arch = "aarch64")]
    unsafe {
        std::arch::asm!("mov {}, x29", out(reg) frame)
    };
    #[cfg(target_arch = "x86_64")]
    unsafe {
        std::arch::asm!("mov {}, rbp", out(reg) frame)
    };
    frame
}

/// The return addresses of the frames that lie on the stack given, innermost first.
#[inline(never)]
fn chain(stack: &Range<usize>) -> Chain {
    let mut chain = [0; DEPTH];
    let mut frame = frame_pointer();
    for link in &mut chain {
        if !stack.contains(&frame) {
            break;
        }
        let record = std::ptr::with_exposed_provenance::<[usize; 2]>(frame);
        let [outer, address] = unsafe { record.read() };
        *link = address;
        frame = outer;
    }
    chain
}

/// The frames of queue.rs in a printed backtrace: the function and the line, innermost first.
fn frames(text: &str) -> Vec<(String, u32)> {
    let mut found = Vec::new();
    let mut function = "";
    for line in text.lines().map(str::trim) {
        match line.strip_prefix("at ") {
            Some(place) => {
                if let Some((_, numbers)) = place.split_once("/queue.rs:") {
                    let number = numbers.split(':').next().and_then(|n| n.parse().ok());
                    found.push((function.to_string(), number.expect("a line number")));
                }
            }
            None => function = line,
        }
    }
    found
}

fn looked_up(announced: u32) -> u32 {
    let text = Backtrace::force_capture().to_string();
    let frames = frames(&text);
    assert_eq!(frames.first().map(|f| f.1), Some(announced), "the debug information names the access\n{text}");
    let outside = frames.iter().find(|(function, _)| !function.contains("AtomicLink"));
    outside.expect("a link is used by a function of queue.rs").1
}

impl Lines {
    /// The line of the access that was announced at `announced` by code that runs on `stack`.
    pub fn of(&mut self, announced: u32, stack: &Range<usize>) -> u32 {
        *self.0.entry(chain(stack)).or_insert_with(|| looked_up(announced))
    }
}
