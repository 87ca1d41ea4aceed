//! Where a node lies. A pointer into a simulated thread's stack is that thread's node, which always lies at one address:
//! where it does, and where its fields lie in it, is found out by three calls before anything is compared.
//!
//! A word is told as document 01 tells it: 16 times the node's number in the place of the pointer.

use crate::cell::OnceCell;
use crate::stage::{self, Call, Kind};
use crate::sync::atomic::{AtomicBool, AtomicPtr};
use crate::thread::Thread;

/// The flags below the number in a word.
const FLAGS: usize = 15;

/// A tuple of the node's fields, for its size.
type Alike = (AtomicPtr<()>, AtomicPtr<()>, AtomicPtr<()>, bool, OnceCell<Thread>, AtomicBool);

#[derive(Clone, Copy, PartialEq, Eq, Debug)]
pub enum Field {
    Next = 2,
    Prev,
    Tail,
    Completed,
}

/// Offsets: of the node in its thread's stack, and of the fields in the node.
#[derive(Clone, Copy, Debug)]
pub struct Nodes {
    node: usize,
    next: usize,
    prev: usize,
    tail: usize,
    completed: usize,
    writer: usize,
}

fn read<T>(address: usize) -> T {
    unsafe { std::ptr::with_exposed_provenance::<T>(address).read() }
}

/// Steps the thread until it waits at an access of this kind, at most as often as a call needs to register.
fn run_to(thread: usize, kind: Kind) -> usize {
    for _ in 0..16 {
        let pending = stage::pending(thread).expect("the call goes on");
        if pending.access.kind == kind {
            return pending.access.address;
        }
        stage::step(thread, false);
    }
    panic!("no access of kind {kind:?}");
}

/// Thread 0 holds the lock and thread 1 goes to register: the offset of its node, and the node's bytes.
fn registered(call: Call) -> (usize, Vec<u8>) {
    stage::reset();
    stage::begin(0, Call::TryWrite);
    stage::step(0, false);
    stage::begin(1, call);
    run_to(1, Kind::WeakCompare);
    stage::step(1, false);
    let node = stage::word() & !FLAGS;
    let bytes = (0..size_of::<Alike>()).map(|i| read(node + i)).collect();
    (node - stage::stack_of(1).start, bytes)
}

/// The one byte that is 0 in a reader's node and 1 in a writer's.
fn writer_mark(reader: &[u8], writer: &[u8]) -> usize {
    let found: Vec<usize> = (0..reader.len()).filter(|&i| (reader[i], writer[i]) == (0, 1)).collect();
    assert_eq!(found.len(), 1, "one byte is the writer mark: {reader:?} {writer:?}");
    found[0]
}

/// Leaves bytes free on the stack of the call whose node lies higher, so that both lie at one address.
fn pin() {
    stage::set_pads([0; 2]);
    let (reader, writer) = (registered(Call::Read).0, registered(Call::Write).0);
    let lower = reader.min(writer);
    stage::set_pads([reader - lower, writer - lower]);
}

impl Nodes {
    /// Three calls on an otherwise idle stage.
    pub fn found() -> Nodes {
        pin();
        let (node, reader) = registered(Call::Read);
        let (same, writer) = registered(Call::Write);
        assert_eq!(node, same, "a reader's and a writer's node lie at one address");
        let own = |thread: usize| stage::stack_of(thread).start + node;
        let tail = stage::filled() - own(1);
        let completed = run_to(1, Kind::Load) - own(1);
        stage::begin(2, Call::Read);
        run_to(2, Kind::WeakCompare);
        stage::step(2, false);
        assert_eq!(run_to(2, Kind::Load) - own(2), tail, "a walk loads the head's tail first");
        stage::step(2, false);
        let next = run_to(2, Kind::Load) - own(2);
        let prev = run_to(2, Kind::Store) - own(1);
        let nodes = Nodes { node, next, prev, tail, completed, writer: writer_mark(&reader, &writer) };
        nodes.check();
        stage::reset();
        nodes
    }

    fn check(&self) {
        let mut offsets = [self.next, self.prev, self.tail, self.completed, self.writer];
        offsets.sort();
        assert!(offsets.windows(2).all(|pair| pair[0] < pair[1]), "the fields lie apart: {self:?}");
        assert!(offsets[4] < size_of::<Alike>(), "the fields lie in the node: {self:?}");
    }

    fn base(&self, thread: usize) -> usize {
        stage::stack_of(thread).start + self.node
    }

    /// A word or a link, as the port has it.
    pub fn word(&self, value: usize) -> u64 {
        let Some(thread) = stage::thread_of(value) else { return value as u64 };
        assert_eq!(value & !FLAGS, self.base(thread), "a pointer into a stack is that thread's node");
        (16 * (thread + 1) + (value & FLAGS)) as u64
    }

    /// The node that a link leads to, 0 for none.
    pub fn number(&self, link: usize) -> u64 {
        self.word(link) / 16
    }

    /// The node and the field of an address.
    pub fn field(&self, address: usize) -> (u64, Field) {
        let thread = stage::thread_of(address).expect("an access is at the word or in a node");
        let offset = address - self.base(thread);
        let field = match offset {
            _ if offset == self.next => Field::Next,
            _ if offset == self.prev => Field::Prev,
            _ if offset == self.tail => Field::Tail,
            _ if offset == self.completed => Field::Completed,
            _ => panic!("no field of a node at offset {offset}: {self:?}"),
        };
        (thread as u64 + 1, field)
    }

    /// The fields of a thread's node: next, prev, tail, writer, completed.
    pub fn fields(&self, thread: usize) -> [u64; 5] {
        let base = self.base(thread);
        [
            self.word(read(base + self.next)),
            self.number(read(base + self.prev)),
            self.number(read(base + self.tail)),
            read::<u8>(base + self.writer) as u64,
            read::<u8>(base + self.completed) as u64,
        ]
    }

    /// Is the node's next a link, and not a count?
    pub fn links(&self, thread: usize) -> bool {
        stage::thread_of(read(self.base(thread) + self.next)).is_some()
    }
}
