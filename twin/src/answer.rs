//! The numbered answers. The order in which they are tested is the order
//! of the cases here, except that the accepting ones come last in a call.
//!
//! Number 15 (a store value that is not sound) has no case: a store of this
//! crate can only be had from its own calls, which keep it sound.

use std::fmt;

#[derive(Clone, Copy, Debug, PartialEq, Eq)]
pub enum Answer {
    Done = 0,
    Running = 20,
    WrongArea = 1,
    MidFlush = 2,
    NameZero = 3,
    WrongLength = 4,
    NameHeld = 5,
    NameNotHeld = 6,
    StoreFull = 7,
    OverQuota = 8,
    CheckpointDue = 9,
    ShortBuffer = 10,
    NoMap = 11,
    WrongVersion = 12,
    WrongSize = 13,
    WrongEntry = 14,
}

impl Answer {
    pub fn number(self) -> u8 {
        self as u8
    }

    pub fn accepted(self) -> bool {
        matches!(self, Answer::Done | Answer::Running)
    }
}

impl fmt::Display for Answer {
    fn fmt(&self, out: &mut fmt::Formatter<'_>) -> fmt::Result {
        write!(out, "{}", self.number())
    }
}
