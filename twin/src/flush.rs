//! One flush: its plan, made whole when it starts, and how far it has got.
//!
//! The plan is a list of moves in order. A move that ends a run is marked;
//! after it a checkpoint is due.

use crate::house::{class_of, Name, Place, CLASSES};
use crate::regions::Regions;

/// One object's move, by a single step.
#[derive(Clone, Copy, Debug, PartialEq, Eq)]
pub struct Move {
    pub name: Name,
    pub target: Place,
    pub ends_run: bool,
}

/// A live object and its place.
pub type Object = (Name, Place);

#[derive(Clone, Debug)]
pub struct Flush {
    moves: Vec<Move>,
    made: usize,
    due: bool,
    after: Regions,
    overflow_end: usize,
}

impl Flush {
    /// Plans the flush that a request of this class starts. `objects` are
    /// the live ones without the new one and without a deleted one.
    pub fn plan(
        regions: &Regions,
        objects: impl Iterator<Item = Object> + Clone,
        class: usize,
        newcomer: Option<(Name, usize)>,
    ) -> Flush {
        let boundary = regions.boundary(class);
        let spare = regions.buffers_from(boundary) + longest(objects.clone(), newcomer);
        let (payload, buffered) = split_by_segment(regions, boundary, objects);
        let after = regions.flushed(boundary, &volumes(&payload, &buffered, newcomer));

        let overflow_start = regions.end().max(after.end()) + spare;
        let overflow = overflow_places(overflow_start, &buffered, newcomer);
        let overflow_end = overflow.last().map_or(overflow_start, |(_, place)| place.end());

        // The newcomer is the last of overflow and is written there by the
        // insert itself, so the first run takes the buffered ones only.
        let to_overflow = overflow[..buffered.len()].to_vec();
        let to_pack = packed_places(overflow_start, &payload);
        let mut finals = FinalPlaces::new(&after);
        let payload_home = finals.take(&payload);
        let overflow_home = finals.take(&overflow);

        let mut moves = Vec::new();
        add_runs(&mut moves, &to_overflow, |_| true);
        add_runs(&mut moves, &to_pack, |run| volume(run) <= spare);
        add_runs(&mut moves, &payload_home, |run| span(run) <= spare);
        add_runs(&mut moves, &overflow_home, |_| true);
        let due = moves.is_empty();
        Flush { moves, made: 0, due, after, overflow_end }
    }

    /// The end of overflow: the footprint as long as the flush runs.
    pub fn overflow_end(&self) -> usize {
        self.overflow_end
    }

    pub fn checkpoint_due(&self) -> bool {
        self.due
    }

    pub fn moves_left(&self) -> usize {
        self.moves.len() - self.made
    }

    /// The next move, now counted as made; none while a checkpoint is due.
    pub fn take_move(&mut self) -> Option<Move> {
        if self.due {
            return None;
        }
        let next = *self.moves.get(self.made)?;
        self.made += 1;
        self.due = next.ends_run;
        Some(next)
    }

    /// Takes note of a confirmation. Returns the new regions if it was the
    /// last one due; one that was not due changes nothing.
    pub fn confirm(&mut self) -> Option<Regions> {
        let was_due = std::mem::replace(&mut self.due, false);
        (was_due && self.moves_left() == 0).then(|| self.after.clone())
    }
}

/// D: the greatest length live after the request, newcomer included, or 0.
fn longest(objects: impl Iterator<Item = Object>, newcomer: Option<(Name, usize)>) -> usize {
    let lengths = objects.map(|(_, place)| place.length);
    lengths.chain(newcomer.map(|(_, length)| length)).max().unwrap_or(0)
}

/// The objects from the boundary up in rising address order, those in
/// payloads apart from those in buffers.
fn split_by_segment(
    regions: &Regions,
    boundary: usize,
    objects: impl Iterator<Item = Object>,
) -> (Vec<Object>, Vec<Object>) {
    let from = regions.payload_start(boundary);
    let mut flushed: Vec<Object> = objects.filter(|(_, place)| place.start >= from).collect();
    flushed.sort_by_key(|(_, place)| place.start);
    flushed.into_iter().partition(|&(_, place)| regions.in_payload(place))
}

/// The live volume of each class (indexed by class less one) among the
/// flushed objects and the newcomer.
fn volumes(
    payload: &[Object],
    buffered: &[Object],
    newcomer: Option<(Name, usize)>,
) -> [usize; CLASSES] {
    let flushed = payload.iter().chain(buffered).map(|(_, place)| place.length);
    let mut volumes = [0; CLASSES];
    for length in flushed.chain(newcomer.map(|(_, length)| length)) {
        volumes[class_of(length) - 1] += length;
    }
    volumes
}

/// Overflow: the buffered objects in order, then the newcomer.
fn overflow_places(
    start: usize,
    buffered: &[Object],
    newcomer: Option<(Name, usize)>,
) -> Vec<Object> {
    let mut next = start;
    let entries = buffered.iter().map(|&(name, place)| (name, place.length)).chain(newcomer);
    entries
        .map(|(name, length)| {
            let place = Place { start: next, length };
            next = place.end();
            (name, place)
        })
        .collect()
}

/// The payload objects from the highest down, packed so that the highest
/// ends where overflow starts.
fn packed_places(end: usize, payload: &[Object]) -> Vec<Object> {
    let mut end = end;
    let falling = payload.iter().rev();
    falling
        .map(|&(name, Place { length, .. })| {
            end -= length;
            (name, Place { start: end, length })
        })
        .collect()
}

/// Hands out the final places: each class's payload fills from its start,
/// in the order the objects are asked for.
struct FinalPlaces {
    next: [usize; CLASSES],
}

impl FinalPlaces {
    fn new(after: &Regions) -> FinalPlaces {
        FinalPlaces { next: std::array::from_fn(|index| after.payload_start(index + 1)) }
    }

    fn take(&mut self, objects: &[Object]) -> Vec<Object> {
        objects.iter().map(|&(name, place)| (name, self.take_one(place))).collect()
    }

    fn take_one(&mut self, place: Place) -> Place {
        let next = &mut self.next[place.class() - 1];
        let start = *next;
        *next += place.length;
        Place { start, length: place.length }
    }
}

/// The volume of a run, by its targets.
fn volume(run: &[Object]) -> usize {
    run.iter().map(|(_, target)| target.length).sum()
}

/// The distance from the first target's start to the last target's end, for
/// targets in rising order. It is more than the volume where there are gaps.
fn span(run: &[Object]) -> usize {
    match (run.first(), run.last()) {
        (Some((_, first)), Some((_, last))) => last.end() - first.start,
        _ => 0,
    }
}

/// Cuts the targets into runs, each as long as `fits` allows, and adds them
/// to the moves. No targets make no run. One object always fits, since a
/// run has room for the longest.
fn add_runs(moves: &mut Vec<Move>, targets: &[Object], fits: impl Fn(&[Object]) -> bool) {
    let mut first = 0;
    for (index, &(name, target)) in targets.iter().enumerate() {
        let more = targets.get(first..index + 2).map_or(false, &fits);
        moves.push(Move { name, target, ends_run: !more });
        if !more {
            first = index + 1;
        }
    }
}
