//! A schedule, and document 01's file of it.

use crate::stage::THREADS;

const VERSION: u8 = 1;
/// The version and the length's four bytes: the length counts what follows them.
const COUNTED_FROM: usize = 5;
const HEADER: usize = 6;
/// The most events that a file may have, and the most bytes that are looked at.
pub const LIMIT: usize = 30_000;
pub const LARGEST: usize = HEADER + 2 * LIMIT;

#[derive(Clone, Default)]
pub struct Schedule {
    pub count: u8,
    pub events: Vec<(u8, u8)>,
}

impl Schedule {
    pub fn bytes(&self) -> Vec<u8> {
        let length = (1 + 2 * self.events.len()) as u32;
        let mut bytes = vec![VERSION];
        bytes.extend(length.to_be_bytes());
        bytes.push(self.count);
        bytes.extend(self.events.iter().flat_map(|&(code, thread)| [code, thread]));
        bytes
    }

    /// The file's checks, in document 01's order, or the refusal.
    pub fn read(bytes: &[u8]) -> Result<Schedule, u8> {
        if bytes.len() > LARGEST {
            return Err(14);
        }
        if bytes.len() < HEADER {
            return Err(10);
        }
        if bytes[0] != VERSION {
            return Err(11);
        }
        let length = u32::from_be_bytes([bytes[1], bytes[2], bytes[3], bytes[4]]) as usize;
        if length != bytes.len() - COUNTED_FROM || length.is_multiple_of(2) {
            return Err(12);
        }
        let count = bytes[COUNTED_FROM];
        if count < 1 || count as usize > THREADS {
            return Err(13);
        }
        let events = bytes[HEADER..].chunks(2).map(|e| (e[0], e[1])).collect();
        Ok(Schedule { count, events })
    }

    /// The file's bytes, as document 01 writes them.
    pub fn spelled(&self) -> String {
        let bytes: Vec<String> = self.bytes().iter().map(|b| format!("{b:02x}")).collect();
        bytes.join(" ")
    }
}
