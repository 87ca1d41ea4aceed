//! The atomics that queue.rs is compiled with: each access is announced, waits for its turn, and acts. One event is one
//! access, so the orders are not looked at: all accesses are sequentially consistent.

use crate::stage::{self, Access, Kind};
use std::cell::Cell;
pub use std::sync::atomic::Ordering;

pub struct Atomic<T>(Cell<T>);

pub type AtomicPtr<T> = Atomic<*mut T>;
pub type AtomicBool = Atomic<bool>;

impl<T: Copy> Atomic<T> {
    pub const fn new(value: T) -> Atomic<T> {
        Atomic(Cell::new(value))
    }

    fn address(&self) -> usize {
        std::ptr::from_ref(self).addr()
    }

    /// Announces the access and waits for its turn; answers whether it is to fail for no cause.
    #[track_caller]
    fn turn(&self, kind: Kind, operand: usize) -> bool {
        stage::turn(Access { kind, address: self.address(), operand })
    }
}

impl Atomic<bool> {
    #[track_caller]
    pub fn load(&self, _: Ordering) -> bool {
        self.turn(Kind::Load, 0);
        let value = self.0.get();
        stage::loaded_flag(value);
        value
    }

    /// The only store of a flag is that of completed, and the unpark that follows it belongs to the same step.
    #[track_caller]
    pub fn store(&self, value: bool, _: Ordering) {
        self.turn(Kind::Complete, value as usize);
        self.0.set(value);
        stage::unpark_follows();
    }
}

impl<T> Atomic<*mut T> {
    #[track_caller]
    pub fn load(&self, _: Ordering) -> *mut T {
        self.turn(Kind::Load, 0);
        self.0.get()
    }

    #[track_caller]
    pub fn store(&self, value: *mut T, _: Ordering) {
        if !stage::fills(self.address()) {
            self.turn(Kind::Store, value.addr());
        }
        self.0.set(value);
    }

    #[track_caller]
    pub fn fetch_or(&self, bits: usize, _: Ordering) -> *mut T {
        self.turn(Kind::FetchOr, bits);
        let old = self.0.get();
        self.0.set(old.map_addr(|a| a | bits));
        old
    }

    #[track_caller]
    pub fn fetch_byte_sub(&self, bytes: usize, _: Ordering) -> *mut T {
        self.turn(Kind::Subtract, bytes);
        let old = self.0.get();
        self.0.set(old.wrapping_byte_sub(bytes));
        stage::subtracted();
        old
    }

    fn exchange(&self, current: *mut T, new: *mut T, fails: bool) -> Result<*mut T, *mut T> {
        let old = self.0.get();
        let succeeds = !fails && old == current;
        if succeeds {
            self.0.set(new);
        }
        stage::compared(succeeds, new.addr());
        if succeeds { Ok(old) } else { Err(old) }
    }

    #[track_caller]
    pub fn compare_exchange(&self, current: *mut T, new: *mut T, _: Ordering, _: Ordering) -> Result<*mut T, *mut T> {
        self.turn(Kind::StrongCompare, current.addr());
        self.exchange(current, new, false)
    }

    #[track_caller]
    pub fn compare_exchange_weak(
        &self,
        current: *mut T,
        new: *mut T,
        _: Ordering,
        _: Ordering,
    ) -> Result<*mut T, *mut T> {
        let fails = self.turn(Kind::WeakCompare, current.addr());
        self.exchange(current, new, fails)
    }

    /// As the library documents it: a load, then weak compares of what the function makes of the word last reported.
    #[track_caller]
    pub fn try_update(
        &self,
        set: Ordering,
        fetch: Ordering,
        mut change: impl FnMut(*mut T) -> Option<*mut T>,
    ) -> Result<*mut T, *mut T> {
        let mut seen = self.load(fetch);
        while let Some(next) = change(seen) {
            match self.compare_exchange_weak(seen, next, set, fetch) {
                Ok(old) => return Ok(old),
                Err(reported) => seen = reported,
            }
        }
        Err(seen)
    }
}
