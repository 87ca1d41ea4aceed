//! The stage: one lock of queue.rs, and simulated threads that make their calls on it, each on a stack of its own. One
//! of them runs at a time, up to its next access, which it announces; the scheduler gives it its turn.
//!
//! All of it is one operating-system thread: a run that is given up in the middle of its calls is simply not gone on
//! with, and the next run starts on the same stacks. No unwinding, nothing to wait for.

use crate::caller::Lines;
use crate::context::{self, Context};
use crate::queue::RwLock;
use std::alloc::{self, Layout};
use std::ops::Range;
use std::panic::{AssertUnwindSafe, Location, catch_unwind};
use std::sync::atomic::{AtomicPtr, Ordering};

/// The most threads that a machine of document 01 has.
pub const THREADS: usize = 8;

/// A stack: the call, and room to look a line up in.
const STACK: usize = 1 << 20;

/// More than the frames take that lie below a thread's `give_way` while it waits.
const BELOW: usize = 1024;

#[derive(Clone, Copy, PartialEq, Eq, Debug)]
pub enum Kind {
    Load = 1,
    Store,
    WeakCompare,
    StrongCompare,
    FetchOr,
    Subtract,
    Complete,
    Park,
}

/// An access: `operand` is what a compare expects, what a store stores.
#[derive(Clone, Copy)]
pub struct Access {
    pub kind: Kind,
    pub address: usize,
    pub operand: usize,
}

/// The access that a thread waits to make, and its line of queue.rs.
#[derive(Clone, Copy)]
pub struct Pending {
    pub access: Access,
    pub line: u32,
}

#[derive(Clone, Copy, PartialEq, Eq, Debug)]
pub enum Call {
    Read,
    Write,
    TryRead,
    TryWrite,
    ReadUnlock,
    WriteUnlock,
    Downgrade,
}

/// What a call came to: what it returned (true where it returns nothing), or that it panicked.
#[derive(Clone, Copy, PartialEq, Eq, Debug)]
pub enum Ended {
    Returned(bool),
    Panicked,
}

/// What the step's access did.
#[derive(Clone, Copy, Default)]
pub struct Happened {
    /// of a compare: whether it succeeded
    pub compared: Option<bool>,
    pub subtracted: bool,
    pub woken: Option<usize>,
}

struct Actor {
    context: Box<Context>,
    now: Now,
    /// no byte of the stack below this one is in use while the thread waits
    low: usize,
}

#[derive(Clone, Copy)]
struct Now {
    call: Call,
    pending: Option<Pending>,
    ended: Option<Ended>,
    registered: bool,
    token: bool,
}

/// A thread outside of any call.
const IDLE: Now = Now { call: Call::Read, pending: None, ended: None, registered: false, token: false };

/// All that a run has come to, to go on from again: the word, and each thread with its registers and its stack.
pub struct Saved {
    word: usize,
    actors: Vec<(Now, Context, Vec<u8>)>,
}

struct Stage {
    main: Box<Context>,
    lock: RwLock,
    actors: [Actor; THREADS],
    stacks: *mut u8,
    /// bytes left free at the top of the stack, by call, so that a node always lies at one address
    pads: [usize; 2],
    running: usize,
    fails: bool,
    unpark_due: bool,
    filled: usize,
    happened: Happened,
    lines: Lines,
}

static STAGE: AtomicPtr<Stage> = AtomicPtr::new(std::ptr::null_mut());

/// References made through it must end before the next switch.
fn stage() -> &'static mut Stage {
    let stage = STAGE.load(Ordering::Relaxed);
    assert!(!stage.is_null(), "the stage is set up first");
    unsafe { &mut *stage }
}

fn actor(thread: usize) -> &'static mut Actor {
    &mut stage().actors[thread]
}

/// Makes the stage. Once, before anything else here.
pub fn set_up() {
    let layout = Layout::from_size_align(STACK * THREADS, STACK).expect("a layout for the stacks");
    let stacks = unsafe { alloc::alloc_zeroed(layout) };
    assert!(!stacks.is_null(), "room for the stacks");
    stacks.expose_provenance();
    let end = |thread: usize| stacks.addr() + STACK * (thread + 1);
    let actors = std::array::from_fn(|thread| Actor { context: Context::new(), now: IDLE, low: end(thread) });
    let made = Stage {
        main: Context::new(),
        lock: RwLock::new(),
        actors,
        stacks,
        pads: [0; 2],
        running: 0,
        fails: false,
        unpark_due: false,
        filled: 0,
        happened: Happened::default(),
        lines: Lines::default(),
    };
    let earlier = STAGE.swap(Box::into_raw(Box::new(made)), Ordering::Relaxed);
    assert!(earlier.is_null(), "the stage is set up once");
}

// ---- for the shims, which run on a simulated thread's stack

pub fn running() -> usize {
    stage().running
}

/// Announces an access, waits for its turn, and answers whether it is to fail for no cause.
#[track_caller]
pub fn turn(access: Access) -> bool {
    let me = running();
    assert!(!stage().unpark_due, "the unpark follows the store of completed with no access between them");
    let line = stage().lines.of(Location::caller().line(), &stack_of(me));
    actor(me).now.pending = Some(Pending { access, line });
    give_way(me);
    stage().fails
}

#[inline(never)]
fn give_way(me: usize) {
    let here = 0u8;
    actor(me).low = (&raw const here).addr() - BELOW;
    let (own, main): (*mut Context, *const Context) = (&mut *actor(me).context, &*stage().main);
    unsafe { context::switch(own, main) };
}

/// Is a store to this address the fill of the thread's own node, before it is registered? Then it is local code.
pub fn fills(address: usize) -> bool {
    let me = running();
    if actor(me).now.registered || !stack_of(me).contains(&address) {
        return false;
    }
    stage().filled = address;
    true
}

pub fn compared(succeeds: bool, new: usize) {
    stage().happened.compared = Some(succeeds);
    let me = running();
    if succeeds && stack_of(me).contains(&new) {
        actor(me).now.registered = true;
    }
}

pub fn subtracted() {
    stage().happened.subtracted = true;
}

/// A waiter that finds completed set leaves its wait.
pub fn loaded_flag(completed: bool) {
    if completed {
        actor(running()).now.registered = false;
    }
}

pub fn unpark_follows() {
    stage().unpark_due = true;
}

pub fn set_token(thread: usize) {
    assert!(stage().unpark_due, "an unpark follows the store of completed");
    stage().unpark_due = false;
    stage().happened.woken = Some(thread);
    actor(thread).now.token = true;
}

pub fn take_token(thread: usize) {
    assert!(actor(thread).now.token, "park returns with a token");
    actor(thread).now.token = false;
}

// ---- for the scheduler

/// An unlocked lock, and every thread outside of any call.
pub fn reset() {
    stage().lock = RwLock::new();
    stage().unpark_due = false;
    for actor in &mut stage().actors {
        actor.now = IDLE;
    }
}

pub fn begin(thread: usize, call: Call) {
    let (stack, pad) = (stack_of(thread), stage().pads[(call == Call::Write) as usize]);
    let bytes = std::ptr::with_exposed_provenance_mut(stack.start);
    actor(thread).now.call = call;
    actor(thread).now.ended = None;
    unsafe { actor(thread).context.start(enter, bytes, STACK - pad) };
    run(thread);
}

/// Gives a thread its turn: it makes its access and goes on to the next one, or to the call's end.
pub fn step(thread: usize, fails: bool) -> Happened {
    stage().fails = fails;
    stage().happened = Happened::default();
    run(thread);
    assert!(!stage().unpark_due, "the unpark follows the store of completed within the call");
    stage().happened
}

fn run(thread: usize) {
    stage().running = thread;
    actor(thread).now.pending = None;
    let (main, other): (*mut Context, *const Context) = (&mut *stage().main, &*actor(thread).context);
    unsafe { context::switch(main, other) };
}

extern "C" fn enter() {
    let me = running();
    let ended = catch_unwind(AssertUnwindSafe(|| perform(actor(me).now.call)));
    actor(me).now.ended = Some(ended.map_or(Ended::Panicked, Ended::Returned));
    give_way(me);
    unreachable!("a call that ended is not gone on with");
}

#[inline(never)]
fn perform(call: Call) -> bool {
    let lock: *const RwLock = &stage().lock;
    let lock = unsafe { &*lock };
    match call {
        Call::Read => lock.read(),
        Call::Write => lock.write(),
        Call::TryRead => return lock.try_read(),
        Call::TryWrite => return lock.try_write(),
        Call::ReadUnlock => unsafe { lock.read_unlock() },
        Call::WriteUnlock => unsafe { lock.write_unlock() },
        Call::Downgrade => unsafe { lock.downgrade() },
    }
    true
}

fn memory_of(thread: usize) -> &'static mut [u8] {
    let (low, end) = (actor(thread).low, stack_of(thread).end);
    unsafe { std::slice::from_raw_parts_mut(std::ptr::with_exposed_provenance_mut(low), end - low) }
}

/// The first `count` threads and the word, as they are.
pub fn save(count: usize) -> Saved {
    let actor =
        |thread| (actor(thread).now, unsafe { (&raw const *actor(thread).context).read() }, memory_of(thread).to_vec());
    Saved { word: word(), actors: (0..count).map(actor).collect() }
}

/// Back to where `save` was called.
pub fn restore(saved: &Saved) {
    unsafe { (&raw mut stage().lock).cast::<usize>().write(saved.word) };
    stage().unpark_due = false;
    for (thread, (now, context, bytes)) in saved.actors.iter().enumerate() {
        actor(thread).now = *now;
        actor(thread).low = stack_of(thread).end - bytes.len();
        memory_of(thread).copy_from_slice(bytes);
        unsafe { (&raw mut *actor(thread).context).copy_from_nonoverlapping(context, 1) };
    }
}

// ---- what stands on the stage

pub fn pending(thread: usize) -> Option<Pending> {
    actor(thread).now.pending
}

pub fn ended(thread: usize) -> Option<Ended> {
    actor(thread).now.ended
}

pub fn registered(thread: usize) -> bool {
    actor(thread).now.registered
}

pub fn token(thread: usize) -> bool {
    actor(thread).now.token
}

pub fn word_address() -> usize {
    (&raw const stage().lock).addr()
}

/// The lock's word, as it lies in memory.
pub fn word() -> usize {
    unsafe { (&raw const stage().lock).cast::<usize>().read() }
}

/// The address of the last store that filled a node.
pub fn filled() -> usize {
    stage().filled
}

pub fn stack_of(thread: usize) -> Range<usize> {
    let start = stage().stacks.addr() + STACK * thread;
    start..start + STACK
}

/// The thread on whose stack an address lies.
pub fn thread_of(address: usize) -> Option<usize> {
    let offset = address.checked_sub(stage().stacks.addr())?;
    (offset < STACK * THREADS).then_some(offset / STACK)
}

/// Leaves bytes free at the top of the stack of read, and of write.
pub fn set_pads(pads: [usize; 2]) {
    stage().pads = pads;
}
