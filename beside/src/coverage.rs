//! What was met against branches.txt: every branch there at least once, those that are never met not at all, and no
//! branch that is not there.

use crate::met::Met;
use crate::places::Places;
use std::collections::BTreeMap;

type Row = [String; 4];

/// The table of branches.txt: each branch, and why it is never met if it is not.
fn expected(text: &str) -> BTreeMap<Row, Option<String>> {
    let mut rows = BTreeMap::new();
    for line in text.lines().filter(|l| !l.starts_with('#') && !l.is_empty()) {
        let cells: Vec<&str> = line.split('|').map(str::trim).collect();
        let reason = cells.get(4).map(|why| why.to_string());
        let cases: Vec<Vec<&str>> = cells[..4].iter().map(|c| c.split(',').map(str::trim).collect()).collect();
        for call in &cases[0] {
            for from in &cases[1] {
                for outcome in &cases[2] {
                    for to in &cases[3] {
                        let row = [call, from, outcome, to].map(|s| s.to_string());
                        let earlier = rows.insert(row, reason.clone());
                        assert!(earlier.is_none(), "branches.txt has a branch twice: {line}");
                    }
                }
            }
        }
    }
    rows
}

pub struct Tally {
    pub passed: u64,
    pub failed: u64,
}

impl Tally {
    pub fn check(&mut self, holds: bool, what: &str) {
        if holds {
            self.passed += 1;
        } else {
            self.failed += 1;
            println!("FAILED: {what}");
        }
    }
}

fn branches(met: &Met, places: &Places, table: &str, tally: &mut Tally) {
    println!("\n    times  branch: call, place, outcome, next");
    let expected = expected(table);
    let rows = met.rows(places);
    for (row, reason) in &expected {
        let times = rows.get(row).copied().unwrap_or(0);
        let name = row.join(" | ");
        match reason {
            None => {
                println!("{times:9}  {name}");
                tally.check(times > 0, &format!("never met: {name}"));
            }
            Some(why) => {
                println!("{times:9}  {name} (unreachable: {why})");
                tally.check(times == 0, &format!("met, and called unreachable: {name}"));
            }
        }
    }
    for (row, times) in rows.iter().filter(|(row, _)| !expected.contains_key(*row)) {
        tally.check(false, &format!("not in branches.txt, and met {times} times: {}", row.join(" | ")));
    }
}

/// Prints the table, and counts what holds.
pub fn report(met: &Met, places: &Places, table: &str, tally: &mut Tally) {
    println!("\n    times  place");
    for (number, place) in places.list.iter().enumerate().skip(1) {
        println!("{:9}  {}", met.place(number), place.name);
        tally.check(met.place(number) > 0, &format!("a place never met: {}", place.name));
    }
    println!("\n    times  refusal");
    for number in 1..=7 {
        println!("{:9}  {number}", met.refusal(number));
        tally.check(met.refusal(number) > 0, &format!("a refusal never met: {number}"));
    }
    tally.check(met.refusal(8) == 0, "refusal 8 was given from fresh");
    branches(met, places, table, tally);
}
