//! `crate::sync` as queue.rs imports it.

pub mod atomic;
