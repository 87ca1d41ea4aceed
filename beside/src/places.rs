//! docs/PLACES.md as data: the places of the port in its order, each with its kind of access and its lines of queue.rs.

use crate::stage::Kind;
use std::collections::HashMap;

pub struct Place {
    pub name: String,
    pub kind: Option<Kind>,
    pub lines: Vec<u32>,
}

/// The places by number, Idle first, and the number of the place of each access.
pub struct Places {
    pub list: Vec<Place>,
    by_line: HashMap<(u32, u8), u64>,
}

fn kind_of(words: &str) -> Option<Kind> {
    Some(match words {
        "none" => return None,
        "load" => Kind::Load,
        "store" => Kind::Store,
        "weak compare" => Kind::WeakCompare,
        "strong compare" => Kind::StrongCompare,
        "fetch-or" => Kind::FetchOr,
        "subtract" => Kind::Subtract,
        "complete" => Kind::Complete,
        "park" => Kind::Park,
        other => panic!("docs/PLACES.md: no access is called '{other}'"),
    })
}

fn place_of(row: &str) -> Option<Place> {
    let cells: Vec<&str> = row.trim().trim_matches('|').split('|').map(str::trim).collect();
    if cells.len() != 6 || cells[0] == "Place" || cells[0].starts_with('-') {
        return None;
    }
    let lines = cells[5].split(',').filter_map(|n| n.trim().parse().ok()).collect();
    Some(Place { name: cells[0].to_string(), kind: kind_of(cells[2]), lines })
}

impl Places {
    pub fn read(text: &str) -> Places {
        let list: Vec<Place> = text.lines().filter(|l| l.starts_with('|')).filter_map(place_of).collect();
        let mut by_line = HashMap::new();
        for (number, place) in list.iter().enumerate() {
            for &line in &place.lines {
                let kind = place.kind.expect("a place with a line makes an access") as u8;
                let earlier = by_line.insert((line, kind), number as u64);
                assert!(earlier.is_none(), "docs/PLACES.md: line {line} is in two places");
            }
        }
        Places { list, by_line }
    }

    /// The number of the place whose access has this line and kind.
    pub fn number(&self, line: u32, kind: Kind) -> Option<u64> {
        self.by_line.get(&(line, kind as u8)).copied()
    }

    pub fn named(&self, name: &str) -> u64 {
        self.list.iter().position(|p| p.name == name).expect("a place of docs/PLACES.md") as u64
    }
}
