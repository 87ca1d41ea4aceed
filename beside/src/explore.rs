//! A path to every machine that is reached from fresh, up to the threads' names, and every event on each of them, the
//! refused ones too. The port's own state says which machines are the same; both sides run each path.

use crate::compare::Comparison;
use crate::front::{Front, STEP};
use crate::port::Ask;
use crate::schedule::Schedule;
use crate::side::Runs;
use crate::stage::{self, Saved, THREADS};
use std::collections::HashSet;

/// Machines that are worked on at a time: the port goes through theirs while the Rust does.
const CHUNK: usize = 500;

/// Refused events that are tried on a machine; the next one has the next of them.
const REFUSED: usize = 5;

type Event = (u8, u8);

/// A machine that was reached: by which events from which, and the events that it accepts.
struct Reached {
    from: u32,
    by: Vec<Event>,
    accepts: Vec<Event>,
}

pub struct Found {
    pub machines: usize,
    pub deepest: usize,
}

/// One thread of a line of the port, with what its place carries.
#[derive(Clone, Default)]
struct Part {
    token: u8,
    holding: u8,
    place: u8,
    kind: u8,
    node: [u8; 5],
    links: bool,
    role: u8,
    reloads: u8,
    seen: u8,
    first: u8,
    second: u8,
}

/// Places that need a case of their own here, by docs/PLACES.md.
pub struct Named {
    contending: [u64; 3],
    register: u8,
    restore: u8,
}

/// With 3 threads every number of a machine is below 256.
fn small(text: &str) -> u8 {
    text.parse().expect("the search is for few threads, whose numbers are small")
}

fn part_of(text: &str, thread: usize, links: u8) -> Part {
    let (outer, inner) = text.split_once(" : ").expect("an event that is tried shows what the places carry");
    let outer: Vec<u8> = outer.split_whitespace().map(small).collect();
    let inner: Vec<u8> = inner.split_whitespace().map(small).collect();
    let mut part = Part { token: outer[0], holding: outer[1], place: outer[2], kind: outer[3], ..Part::default() };
    if outer.len() > 7 {
        part.node.copy_from_slice(&outer[7..12]);
    }
    part.links = links >> thread & 1 == 1;
    [part.role, part.reloads, part.seen, part.first, part.second] = inner[..].try_into().expect("five values");
    part
}

/// A machine: the word, and its threads.
struct Machine {
    word: u8,
    parts: Vec<Part>,
}

impl Machine {
    fn of(line: &str, links: u8) -> Machine {
        let mut pieces = line.split(" |");
        let head = pieces.next().expect("a reply and the word");
        let word = small(head.rsplit(' ').next().expect("the word is last"));
        Machine { word, parts: pieces.enumerate().map(|(i, piece)| part_of(piece, i, links)).collect() }
    }

    /// The events that are accepted, by what each thread does next.
    fn accepts(&self) -> Vec<Event> {
        let of =
            |(thread, part): (usize, &Part)| part.codes().iter().map(move |&c| (c, thread as u8)).collect::<Vec<_>>();
        self.parts.iter().enumerate().flat_map(of).collect()
    }

    /// The smallest text of the machine under every renaming of its threads. A node's links count while they may be read:
    /// from its registration to its completion.
    fn key(&self, named: &Named, orders: &[Vec<u8>]) -> Vec<u8> {
        orders.iter().map(|order| self.renamed(named, order)).min().expect("there is an order")
    }

    fn renamed(&self, named: &Named, order: &[u8]) -> Vec<u8> {
        let node = |n: u8| if n == 0 { 0 } else { order[n as usize - 1] + 1 };
        let word = |w: u8| if w & 2 == 0 { w } else { 16 * node(w / 16) + w % 16 };
        let mut places = vec![0; order.len()];
        for (thread, &to) in order.iter().enumerate() {
            places[to as usize] = thread;
        }
        let mut key = vec![word(self.word)];
        for thread in places {
            let p = &self.parts[thread];
            let unread = p.place == named.register || p.node[4] == 1;
            let [next, prev, tail, ..] = if unread { [0; 5] } else { p.node };
            let completed = p.node[4];
            let next = if p.links && next != 0 { 16 * node(next / 16) } else { next };
            let second = if p.place == named.restore { word(p.second) } else { node(p.second) };
            key.extend([p.token, p.holding, p.place, p.role, p.reloads, word(p.seen), node(p.first), second]);
            key.extend([next, node(prev), node(tail), completed]);
        }
        key
    }
}

impl Part {
    fn codes(&self) -> &'static [u8] {
        match (self.kind, self.holding) {
            (0, 0) => &[0, 1, 2, 3],
            (0, 1) => &[4],
            (0, _) => &[5, 6],
            (3, _) => &[16, 17],
            (8, _) if self.token == 0 => &[17],
            (8, _) => &[16, 17],
            _ => &[16],
        }
    }
}

/// Every order of `count` threads.
fn orders(count: u8) -> Vec<Vec<u8>> {
    if count == 0 {
        return vec![vec![]];
    }
    let mut all = Vec::new();
    for shorter in orders(count - 1) {
        for at in 0..=shorter.len() {
            let mut longer = shorter.clone();
            longer.insert(at, count - 1);
            all.push(longer);
        }
    }
    all
}

/// Bit t: is the next of thread t's node a link, on the Rust's side?
fn links(compared: &Comparison) -> u8 {
    (0..compared.side.front.count())
        .map(|t| ((compared.side.eye.filled(t) && compared.side.eye.nodes.links(t)) as u8) << t)
        .sum()
}

struct Search<'s, 'a> {
    compared: &'s mut Comparison<'a>,
    count: u8,
    full: bool,
    named: Named,
    orders: Vec<Vec<u8>>,
    reached: Vec<Reached>,
    seen: HashSet<Vec<u8>>,
    deepest: usize,
}

/// A run of events that was tried on a machine: the Rust's line after the last of them; its links, if the machine that
/// they lead to is to be gone on from.
struct Tried {
    machine: usize,
    by: Vec<Event>,
    rust: String,
    links: Option<u8>,
}

/// The events from fresh to a machine.
fn path_to(reached: &[Reached], machine: usize) -> Vec<Event> {
    let mut events = Vec::new();
    let mut at = machine;
    while at != 0 {
        events.extend(reached[at].by.iter().rev());
        at = reached[at].from as usize;
    }
    events.reverse();
    events
}

impl Search<'_, '_> {
    /// Some of the events that the machine refuses: of every thread, of one more, of codes that are none.
    fn refused(&self, machine: usize) -> Vec<Event> {
        let codes = [0, 1, 2, 3, 4, 5, 6, 16, 17];
        let mut all: Vec<Event> = (0..self.count).flat_map(|t| codes.map(|c| (c, t))).collect();
        all.extend([(7, 0), (15, 0), (18, self.count), (255, 255), (16, self.count), (0, 255)]);
        all.retain(|event| !self.reached[machine].accepts.contains(event));
        (0..REFUSED).map(|i| all[(machine * REFUSED + i) % all.len()]).collect()
    }

    /// Both sides go to a machine; the Rust can come back to it.
    fn go_to(&mut self, path: &[Event]) -> (Front, Saved) {
        self.compared.side.front = Front::new(self.count as usize);
        for &(code, thread) in path {
            self.compared.side.front.event(code, thread);
        }
        self.lead_port(path);
        (self.compared.side.front.clone(), stage::save(self.count as usize))
    }

    fn lead_port(&mut self, path: &[Event]) {
        self.compared.port.ask(Ask::Fresh, self.count, 0);
        for &(code, thread) in path {
            self.compared.port.ask(Ask::Quietly, code, thread);
        }
    }

    /// Tries events on a machine: the Rust at once, the port later.
    fn expand(&mut self, machine: usize, tried: &mut Vec<Tried>) {
        let path = path_to(&self.reached, machine);
        self.deepest = self.deepest.max(path.len());
        let start = self.go_to(&path);
        for event in self.refused(machine) {
            tried.push(self.attempt(machine, event));
        }
        let mut reloading = Vec::new();
        for event in self.reached[machine].accepts.clone() {
            let before = self.compared.side.eye.place(event.1 as usize);
            let mut one = self.attempt(machine, event);
            if self.reloads(before, event.1) {
                reloading.push((event, self.compared.side.front.clone(), stage::save(self.count as usize)));
            } else {
                one.links = Some(links(self.compared));
            }
            tried.push(one);
            self.compared.side.front = start.0.clone();
            stage::restore(&start.1);
        }
        for (event, front, saved) in reloading {
            self.compared.side.front = front;
            stage::restore(&saved);
            self.lead_port(&path);
            self.compared.port.ask(Ask::Quietly, event.0, event.1);
            self.reload(machine, event, tried);
        }
    }

    /// Has the thread begun to reload, or does it go on to? Then its reloads are gone through at once.
    fn reloads(&self, before: u64, thread: u8) -> bool {
        let contending = &self.named.contending;
        !self.full && contending.contains(&before) && self.compared.side.eye.place(thread as usize) == contending[0]
    }

    fn attempt(&mut self, machine: usize, event: Event) -> Tried {
        self.compared.port.ask(Ask::Try, event.0, event.1);
        self.compared.side.event(event.0, event.1);
        Tried { machine, by: vec![event], rust: self.compared.side.line.clone(), links: None }
    }

    /// The reloads after an event, up to the last.
    fn reload(&mut self, machine: usize, event: Event, tried: &mut Vec<Tried>) {
        let step = (STEP, event.1);
        let mut by = vec![event];
        loop {
            by.push(step);
            self.compared.side.event(step.0, step.1);
            let rust = self.compared.side.line.clone();
            let goes_on = self.compared.side.eye.place(step.1 as usize) == self.named.contending[0];
            let links = (!goes_on).then(|| links(self.compared));
            self.compared.port.ask(if goes_on { Ask::Show } else { Ask::Try }, step.0, step.1);
            tried.push(Tried { machine, by: by.clone(), rust, links });
            if !goes_on {
                return;
            }
        }
    }

    /// The port's line for what was tried: compared, and the machine kept if it is a new one.
    fn settle(&mut self, tried: Tried, line: &str) {
        let outer: Vec<&str> = line.split(" |").map(|piece| piece.split(" : ").next().expect("a part")).collect();
        let reached = &self.reached;
        let (machine, count, by) = (tried.machine, self.count, &tried.by);
        let shows = || {
            let mut events = path_to(reached, machine);
            events.extend(by);
            Schedule { count, events }
        };
        self.compared.judge(&tried.rust, &outer.join(" |"), shows);
        if let Some(links) = tried.links
            && !line.starts_with("refused")
        {
            self.keep(tried.machine, tried.by, &Machine::of(line, links));
        }
    }

    fn keep(&mut self, from: usize, by: Vec<Event>, machine: &Machine) {
        if self.seen.insert(machine.key(&self.named, &self.orders)) {
            self.reached.push(Reached { from: from as u32, by, accepts: machine.accepts() });
        }
    }

    fn run(&mut self) -> Found {
        let mut at = 0;
        let mut line = String::new();
        while at < self.reached.len() && self.compared.differences == 0 {
            let end = self.reached.len().min(at + CHUNK);
            let mut tried = Vec::new();
            for machine in at..end {
                self.expand(machine, &mut tried);
            }
            self.compared.port.send();
            for one in tried {
                self.compared.port.line(&mut line);
                self.settle(one, &line);
            }
            at = end;
        }
        Found { machines: self.reached.len(), deepest: self.deepest }
    }
}

/// Goes through every machine of `count` threads. A thread that began to reload goes on to its last reload at once, unless
/// `full`: then every interleaving of the reloads is gone through too.
pub fn run(compared: &mut Comparison, count: u8, full: bool) -> Found {
    assert!(count as usize <= THREADS);
    let place = |name: &str| compared.side.eye.places.named(name);
    let contending = ["ContendLoad", "ContendCas", "RegisterCas"].map(place);
    let named = Named { contending, register: contending[2] as u8, restore: place("SplitRestore") as u8 };
    let fresh = Machine { word: 0, parts: vec![Part::default(); count as usize] };
    let orders = orders(count);
    let seen = HashSet::from([fresh.key(&named, &orders)]);
    let first = Reached { from: 0, by: Vec::new(), accepts: fresh.accepts() };
    let mut search = Search { compared, count, full, named, orders, reached: vec![first], seen, deepest: 0 };
    search.run()
}
