//! `crate::thread` as queue.rs imports it: a handle is a simulated thread's number, its token is the stage's.

use crate::stage::{self, Access, Kind};

#[derive(Clone)]
pub struct Thread(usize);

pub fn current_or_unnamed() -> Thread {
    Thread(stage::running())
}

impl Thread {
    /// # Safety
    ///
    /// Called by the thread itself, as in the library.
    #[track_caller]
    pub unsafe fn park(&self) {
        assert_eq!(self.0, stage::running(), "a thread parks itself");
        let fails = stage::turn(Access { kind: Kind::Park, address: 0, operand: 0 });
        if !fails {
            stage::take_token(self.0);
        }
    }

    pub fn unpark(&self) {
        stage::set_token(self.0);
    }
}
