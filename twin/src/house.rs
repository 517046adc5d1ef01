//! The house numbers, and the small kinds every other module speaks in:
//! names, places, classes and the quota.

use std::ops::Range;

/// The shortest and the longest area a store may be opened for.
pub const SHORTEST_AREA: usize = 16_384;
pub const LONGEST_AREA: usize = 65_536;

/// The greatest length an object may have, in bytes.
pub const LONGEST_OBJECT: usize = 4_095;

/// How many objects may live at once.
pub const MOST_OBJECTS: usize = 256;

/// Classes are numbered from 1 to this.
pub const CLASSES: usize = 12;

/// What an object is called. A kind of its own, so that the compiler keeps
/// names and addresses apart.
#[derive(Clone, Copy, Debug, PartialEq, Eq, PartialOrd, Ord)]
pub struct Name(pub u16);

/// Where bytes lie in the area.
#[derive(Clone, Copy, Debug, PartialEq, Eq)]
pub struct Place {
    pub start: usize,
    pub length: usize,
}

impl Place {
    pub fn end(self) -> usize {
        self.start + self.length
    }

    pub fn range(self) -> Range<usize> {
        self.start..self.end()
    }

    pub fn class(self) -> usize {
        class_of(self.length)
    }

    /// Whether the two share no byte.
    pub fn misses(self, other: Place) -> bool {
        self.end() <= other.start || other.end() <= self.start
    }
}

/// The class of a length: the number of binary digits it takes.
pub fn class_of(length: usize) -> usize {
    (usize::BITS - length.leading_zeros()) as usize
}

pub fn area_in_limits(area_length: usize) -> bool {
    (SHORTEST_AREA..=LONGEST_AREA).contains(&area_length)
}

/// The most live volume for an area whose length is in its limits.
pub fn quota(area_length: usize) -> usize {
    3 * (area_length - 2 * LONGEST_OBJECT) / 7
}
