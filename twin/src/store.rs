//! The store and its calls. Each call first goes through its refusals, in
//! the order of the answer table, and changes nothing before all are past.
//!
//! Insert, step and read are lent the area and so can refuse its length.
//! Delete, find and confirm use no byte of it and are not lent it.

use std::collections::BTreeMap;

use crate::answer::Answer;
use crate::flush::Flush;
use crate::house::{area_in_limits, class_of, quota, Name, Place, LONGEST_OBJECT, MOST_OBJECTS};
use crate::map::{map_bytes, map_length};
use crate::regions::Regions;

/// A store. One from a refused opening has no area length, and is empty in
/// all else, so its footprint and volume are 0.
#[derive(Clone, Debug)]
pub struct Store {
    area_length: Option<usize>,
    objects: BTreeMap<Name, Place>,
    regions: Regions,
    volume: usize,
    flush: Option<Flush>,
}

impl Store {
    pub fn open(area_length: usize) -> (Answer, Store) {
        if area_in_limits(area_length) {
            (Answer::Done, Store::empty(Some(area_length)))
        } else {
            (Answer::WrongArea, Store::empty(None))
        }
    }

    fn empty(area_length: Option<usize>) -> Store {
        Store {
            area_length,
            objects: BTreeMap::new(),
            regions: Regions::default(),
            volume: 0,
            flush: None,
        }
    }

    // The calls.

    /// Stores a page. This writes one place of the area.
    pub fn insert(&mut self, area: &mut [u8], name: Name, page: &[u8]) -> Answer {
        if let Err(refusal) = self.may_insert(area.len(), name, page.len()) {
            return refusal;
        }
        let start = self.place(name, page.len());
        let place = Place { start, length: page.len() };
        area[place.range()].copy_from_slice(page);
        self.objects.insert(name, place);
        self.volume += place.length;
        self.rest_or_running()
    }

    pub fn delete(&mut self, name: Name) -> Answer {
        if let Err(refusal) = self.may_delete(name) {
            return refusal;
        }
        if let Some(place) = self.objects.remove(&name) {
            self.volume -= place.length;
            self.record(place.length);
        }
        self.rest_or_running()
    }

    /// Makes one whole move of a running flush.
    pub fn step(&mut self, area: &mut [u8]) -> Answer {
        if self.area_length != Some(area.len()) {
            return Answer::WrongArea;
        }
        let flush = match &mut self.flush {
            Some(flush) => flush,
            None => return Answer::Done,
        };
        let next = match flush.take_move() {
            Some(next) => next,
            None => return Answer::CheckpointDue,
        };
        if let Some(source) = self.objects.insert(next.name, next.target) {
            area.copy_within(source.range(), next.target.start);
        }
        self.rest_or_running()
    }

    /// Writes the map at the buffer's front. If a checkpoint is due, this
    /// confirms it.
    pub fn confirm(&mut self, buffer: &mut [u8]) -> Answer {
        if self.area_length.is_none() {
            return Answer::WrongArea;
        }
        let length = map_length(self.objects.len());
        if buffer.len() < length {
            return Answer::ShortBuffer;
        }
        let entries = self.objects.iter().map(|(&name, &place)| (name, place));
        buffer[..length].copy_from_slice(&map_bytes(entries));
        if let Some(after) = self.flush.as_mut().and_then(Flush::confirm) {
            self.regions = after;
            self.flush = None;
        }
        Answer::Done
    }

    /// The present place of an object.
    pub fn find(&self, name: Name) -> Result<Place, Answer> {
        if self.area_length.is_none() {
            return Err(Answer::WrongArea);
        }
        self.held_place(name)
    }

    /// The object's part of the area, or the blank page if refused.
    pub fn read<'a>(&self, area: &'a [u8], blank: &'a [u8], name: Name) -> (Answer, &'a [u8]) {
        if self.area_length != Some(area.len()) {
            return (Answer::WrongArea, blank);
        }
        match self.held_place(name) {
            Ok(place) => (Answer::Done, &area[place.range()]),
            Err(refusal) => (refusal, blank),
        }
    }

    /// The end of the last region at rest, of overflow while a flush runs.
    pub fn footprint(&self) -> usize {
        match &self.flush {
            Some(flush) => flush.overflow_end(),
            None => self.regions.end(),
        }
    }

    pub fn volume(&self) -> usize {
        self.volume
    }

    // What the programs, the session makers and the tests look at.

    pub fn area_length(&self) -> Option<usize> {
        self.area_length
    }

    pub fn objects(&self) -> &BTreeMap<Name, Place> {
        &self.objects
    }

    /// The regions as of the last time at rest.
    pub fn regions(&self) -> &Regions {
        &self.regions
    }

    pub fn flush_running(&self) -> bool {
        self.flush.is_some()
    }

    pub fn checkpoint_due(&self) -> bool {
        self.flush.as_ref().map_or(false, Flush::checkpoint_due)
    }

    /// How many steps the running flush still needs.
    pub fn moves_left(&self) -> usize {
        self.flush.as_ref().map_or(0, Flush::moves_left)
    }

    // Refusals.

    fn may_insert(&self, lent: usize, name: Name, length: usize) -> Result<(), Answer> {
        let area_length = match self.area_length {
            Some(opened) if opened == lent => opened,
            _ => return Err(Answer::WrongArea),
        };
        if self.flush_running() {
            return Err(Answer::MidFlush);
        }
        if name == Name(0) {
            return Err(Answer::NameZero);
        }
        if length == 0 || length > LONGEST_OBJECT {
            return Err(Answer::WrongLength);
        }
        if self.objects.contains_key(&name) {
            return Err(Answer::NameHeld);
        }
        if self.objects.len() >= MOST_OBJECTS {
            return Err(Answer::StoreFull);
        }
        if self.volume + length > quota(area_length) {
            return Err(Answer::OverQuota);
        }
        Ok(())
    }

    fn may_delete(&self, name: Name) -> Result<(), Answer> {
        if self.area_length.is_none() {
            return Err(Answer::WrongArea);
        }
        if self.flush_running() {
            return Err(Answer::MidFlush);
        }
        self.held_place(name).map(|_| ())
    }

    fn held_place(&self, name: Name) -> Result<Place, Answer> {
        if name == Name(0) {
            return Err(Answer::NameZero);
        }
        self.objects.get(&name).copied().ok_or(Answer::NameNotHeld)
    }

    fn rest_or_running(&self) -> Answer {
        if self.flush_running() {
            Answer::Running
        } else {
            Answer::Done
        }
    }

    // Placing.

    /// Finds the new object's start: a new class, a buffer, or overflow.
    fn place(&mut self, name: Name, length: usize) -> usize {
        let class = class_of(length);
        if class > self.regions.top_class() {
            return self.regions.open_class(class, length);
        }
        if let Some(number) = self.regions.earliest_buffer(class, length) {
            return self.regions.use_buffer(number, class, length);
        }
        // The newcomer is the last in overflow.
        self.start_flush(class, Some((name, length))) - length
    }

    /// Records a deletion in a buffer, or flushes without a record.
    fn record(&mut self, length: usize) {
        let class = class_of(length);
        match self.regions.earliest_buffer(class, length) {
            Some(number) => {
                self.regions.use_buffer(number, class, length);
            }
            None => {
                self.start_flush(class, None);
            }
        }
    }

    /// Starts a flush. Returns the end of overflow.
    fn start_flush(&mut self, class: usize, newcomer: Option<(Name, usize)>) -> usize {
        let objects = self.objects.iter().map(|(&name, &place)| (name, place));
        let flush = Flush::plan(&self.regions, objects, class, newcomer);
        let overflow_end = flush.overflow_end();
        self.flush = Some(flush);
        overflow_end
    }
}
