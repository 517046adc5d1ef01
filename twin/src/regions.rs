//! The regions: for each class a payload and behind it a buffer. This
//! module says where a new object or a record goes, and how far down a
//! flush has to reach.

use crate::house::{Place, CLASSES};

/// One class's sizes, and what its buffer has taken since it was last
/// flushed. `lowest` is 0 as long as nothing is used.
#[derive(Clone, Copy, Debug, Default, PartialEq, Eq)]
pub struct Region {
    pub payload: usize,
    pub buffer: usize,
    pub used: usize,
    pub lowest: usize,
}

impl Region {
    /// A region fresh from a flush or from a first object: its buffer is a
    /// quarter of its payload and empty.
    fn fresh(payload: usize) -> Region {
        Region { payload, buffer: payload / 4, used: 0, lowest: 0 }
    }

    fn size(&self) -> usize {
        self.payload + self.buffer
    }

    fn unused(&self) -> usize {
        self.buffer - self.used
    }
}

/// All twelve regions, in class order from address 0 without gaps.
#[derive(Clone, Debug, Default, PartialEq, Eq)]
pub struct Regions {
    list: [Region; CLASSES],
}

impl Regions {
    pub fn region(&self, class: usize) -> &Region {
        &self.list[class - 1]
    }

    fn region_mut(&mut self, class: usize) -> &mut Region {
        &mut self.list[class - 1]
    }

    /// Where payload segment `class` starts.
    pub fn payload_start(&self, class: usize) -> usize {
        self.list[..class - 1].iter().map(Region::size).sum()
    }

    /// Where buffer segment `class` starts.
    pub fn buffer_start(&self, class: usize) -> usize {
        self.payload_start(class) + self.region(class).payload
    }

    /// The end of the last region (F).
    pub fn end(&self) -> usize {
        self.list.iter().map(Region::size).sum()
    }

    /// The largest class with a payload, or 0.
    pub fn top_class(&self) -> usize {
        (1..=CLASSES).rev().find(|&class| self.region(class).payload > 0).unwrap_or(0)
    }

    /// Whether an object lies in the payload of its class; if not, at rest
    /// it lies in a buffer.
    pub fn in_payload(&self, place: Place) -> bool {
        let class = place.class();
        let start = self.payload_start(class);
        (start..start + self.region(class).payload).contains(&place.start)
    }

    /// Gives a class above the top class its first object, at the end of
    /// the last region. Returns the object's start.
    pub fn open_class(&mut self, class: usize, length: usize) -> usize {
        let start = self.end();
        *self.region_mut(class) = Region::fresh(length);
        start
    }

    /// The earliest buffer that an object or record of this class and
    /// length fits in.
    pub fn earliest_buffer(&self, class: usize, length: usize) -> Option<usize> {
        (class..=self.top_class()).find(|&number| self.region(number).unused() >= length)
    }

    /// Uses buffer space for an object or a record. Returns where it
    /// starts.
    pub fn use_buffer(&mut self, number: usize, class: usize, length: usize) -> usize {
        let start = self.buffer_start(number) + self.region(number).used;
        let region = self.region_mut(number);
        region.lowest = if region.used == 0 { class } else { region.lowest.min(class) };
        region.used += length;
        start
    }

    /// The boundary of a flush asked for by a request of this class. Each
    /// round goes down to the lowest class found, so it ends.
    pub fn boundary(&self, class: usize) -> usize {
        let mut boundary = class;
        while let Some(lower) = self.entered_below(boundary) {
            boundary = lower;
        }
        boundary
    }

    /// The lowest class below `class` that some buffer numbered `class` or
    /// more holds an entry or a record of.
    fn entered_below(&self, class: usize) -> Option<usize> {
        self.list[class - 1..]
            .iter()
            .filter(|region| region.used > 0 && region.lowest < class)
            .map(|region| region.lowest)
            .min()
    }

    /// The total size of the buffers from the boundary up (B).
    pub fn buffers_from(&self, boundary: usize) -> usize {
        self.list[boundary - 1..].iter().map(|region| region.buffer).sum()
    }

    /// The regions after a flush: from the boundary up, payloads as large
    /// as the live volumes and empty buffers; below it, as before.
    /// `volumes` is indexed by class less one.
    pub fn flushed(&self, boundary: usize, volumes: &[usize; CLASSES]) -> Regions {
        let mut after = self.clone();
        for class in boundary..=CLASSES {
            *after.region_mut(class) = Region::fresh(volumes[class - 1]);
        }
        after
    }
}
