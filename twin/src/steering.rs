//! Chooses the next request of a made session. It looks at the store the
//! session has built so far, and goes through phases, so that stores grow,
//! fill up, churn near the quota, empty, and meet every refusal.

use crate::house::{quota, Name, CLASSES, LONGEST_OBJECT, MOST_OBJECTS};
use crate::random::Random;
use crate::store::Store;

#[derive(Clone, Copy, Debug, PartialEq, Eq)]
pub enum Request {
    Insert { name: Name, length: usize, byte: u8 },
    Delete { name: Name },
}

/// What a stretch of the session is after.
#[derive(Clone, Copy, Debug, PartialEq, Eq)]
enum Phase {
    /// Mostly inserts, all classes.
    Growth,
    /// Many small objects, up to the most there may be.
    Small,
    /// Long objects, up to the quota.
    Long,
    /// Inserts and deletes close below the quota.
    Churn,
    /// Lengths at the ends of classes, and exactly what the quota leaves.
    Edges,
    /// A few long objects first, then small ones in their buffers.
    Buffered,
    /// Mostly deletes, often down to nothing.
    Drain,
}

const PHASES: [Phase; 7] = [
    Phase::Growth,
    Phase::Small,
    Phase::Long,
    Phase::Churn,
    Phase::Edges,
    Phase::Buffered,
    Phase::Drain,
];

/// Names come mostly from this many, so that they are soon used again.
const COMMON_NAMES: usize = 400;

/// The phases that are not about small objects first make way down to this
/// many, or they would only meet a full store or a full quota.
const CROWD: usize = 40;

/// A phase that has filled the store ends after so many more requests.
const FULL_FOR: usize = 40;

pub struct Steering {
    phases: Vec<Phase>,
    phase: Phase,
    requests_left: usize,
}

impl Steering {
    pub fn new() -> Steering {
        Steering { phases: Vec::new(), phase: Phase::Growth, requests_left: 0 }
    }

    /// Whether the next request begins a phase: a good time to reopen.
    pub fn between_phases(&self) -> bool {
        self.requests_left == 0
    }

    /// The next request for a store at rest.
    pub fn request(&mut self, random: &mut Random, store: &Store) -> Request {
        if self.requests_left == 0 {
            self.next_phase(random);
        }
        self.requests_left -= 1;
        if is_full(store) {
            self.requests_left = self.requests_left.min(FULL_FOR);
        }
        if random.percent(5) {
            return refusable(random, store);
        }
        match self.phase {
            Phase::Small => small(random, store),
            Phase::Buffered => buffered(random, store),
            _ if store.objects().len() > CROWD && random.percent(80) => delete_held(random, store),
            Phase::Growth => growth(random, store),
            Phase::Long => long(random, store),
            Phase::Churn => churn(random, store),
            Phase::Edges => edges(random, store),
            Phase::Drain => drain(random, store),
        }
    }

    /// Each round goes through all phases, in an order of its own.
    fn next_phase(&mut self, random: &mut Random) {
        if self.phases.is_empty() {
            self.phases = PHASES.to_vec();
            random.shuffle(&mut self.phases);
        }
        self.phase = self.phases.pop().unwrap_or(Phase::Growth);
        self.requests_left = match self.phase {
            Phase::Small | Phase::Buffered => random.within(200..=500),
            _ => random.within(60..=400),
        };
    }
}

impl Default for Steering {
    fn default() -> Steering {
        Steering::new()
    }
}

/// Any request, without regard to what the store can take now.
pub fn any_request(random: &mut Random, store: &Store) -> Request {
    if random.percent(30) {
        refusable(random, store)
    } else if random.percent(50) {
        delete_held(random, store)
    } else {
        let length = mixed_length(random);
        insert(random, store, length)
    }
}

/// A name for looking at: held, not held, or 0.
pub fn any_name(random: &mut Random, store: &Store) -> Name {
    match random.below(10) {
        0 => Name(0),
        1 | 2 => new_name(random, store),
        _ => held_name(random, store),
    }
}

fn growth(random: &mut Random, store: &Store) -> Request {
    if random.percent(15) {
        return delete_held(random, store);
    }
    let length = mixed_length(random);
    insert_within_quota(random, store, length)
}

fn small(random: &mut Random, store: &Store) -> Request {
    if is_full(store) && random.percent(60) || random.percent(4) {
        return delete_held(random, store);
    }
    if room(store) < 8 {
        return Request::Delete { name: longest_name(store) };
    }
    let length = random.within(1..=8);
    insert(random, store, length)
}

fn long(random: &mut Random, store: &Store) -> Request {
    if random.percent(35) {
        return delete_held(random, store);
    }
    let shortest = random.pick(&[500, 1_024, 2_048]);
    let length = random.within(shortest..=LONGEST_OBJECT);
    insert_within_quota(random, store, length)
}

fn churn(random: &mut Random, store: &Store) -> Request {
    let near_quota = room(store) * 8 < store_quota(store);
    if near_quota && random.percent(60) || random.percent(10) {
        return delete_held(random, store);
    }
    let length = mixed_length(random);
    insert_within_quota(random, store, length)
}

fn edges(random: &mut Random, store: &Store) -> Request {
    if random.percent(40) {
        return delete_held(random, store);
    }
    let class = random.within(1..=CLASSES);
    let length = match random.below(8) {
        0 => room(store),
        1 => room(store) + 1,
        2..=4 => 1 << (class - 1),
        _ => (1 << class) - 1,
    };
    insert(random, store, length.min(LONGEST_OBJECT))
}

fn buffered(random: &mut Random, store: &Store) -> Request {
    // A third of any quota is more than the shortest length asked for here.
    if store.volume() < (store_quota(store) * 2 / 3).min(6_000) {
        let length = random.within(600..=room(store).min(LONGEST_OBJECT));
        return insert(random, store, length);
    }
    if is_full(store) && random.percent(60) || random.percent(8) {
        return delete_held(random, store);
    }
    let length = random.within(1..=3);
    insert_within_quota(random, store, length)
}

fn drain(random: &mut Random, store: &Store) -> Request {
    if !store.objects().is_empty() && random.percent(80) {
        return delete_held(random, store);
    }
    let length = mixed_length(random);
    insert_within_quota(random, store, length)
}

/// A request that a refusal is likely to meet.
fn refusable(random: &mut Random, store: &Store) -> Request {
    let byte = random.byte();
    let name = new_name(random, store);
    let length = mixed_length(random);
    match random.below(7) {
        0 => Request::Insert { name: Name(0), length, byte },
        1 => Request::Insert { name, length: 0, byte },
        2 => Request::Insert { name, length: random.pick(&[4_096, 5_000, 65_535]), byte },
        3 => Request::Insert { name: held_name(random, store), length, byte },
        4 => Request::Insert { name, length: (room(store) + 1).min(LONGEST_OBJECT), byte },
        5 => Request::Delete { name: Name(0) },
        _ => Request::Delete { name },
    }
}

fn insert(random: &mut Random, store: &Store, length: usize) -> Request {
    Request::Insert { name: new_name(random, store), length, byte: random.byte() }
}

/// Inserts, mostly within what the quota leaves; makes room if that is
/// nothing.
fn insert_within_quota(random: &mut Random, store: &Store, length: usize) -> Request {
    let room = room(store);
    if length <= room || random.percent(8) {
        insert(random, store, length)
    } else if room == 0 || random.percent(50) {
        delete_held(random, store)
    } else {
        let length = random.within(1..=room);
        insert(random, store, length)
    }
}

/// Deletes a held object; one time in five a longest one, so that D falls.
fn delete_held(random: &mut Random, store: &Store) -> Request {
    let name = if random.percent(20) { longest_name(store) } else { held_name(random, store) };
    Request::Delete { name }
}

/// A held name, or some name if none is held.
fn held_name(random: &mut Random, store: &Store) -> Name {
    let index = random.below(store.objects().len());
    store.objects().keys().nth(index).copied().unwrap_or(Name(1))
}

/// The name of a longest object, or some name if none is held.
fn longest_name(store: &Store) -> Name {
    let longest = store.objects().iter().max_by_key(|(_, place)| place.length);
    longest.map_or(Name(1), |(&name, _)| name)
}

/// A name that is not held, from the common ones if possible.
fn new_name(random: &mut Random, store: &Store) -> Name {
    let highest = if random.percent(95) { COMMON_NAMES } else { 65_535 };
    loop {
        let name = Name(random.within(1..=highest) as u16);
        if !store.objects().contains_key(&name) {
            return name;
        }
    }
}

/// A length of any class, each about as often.
fn mixed_length(random: &mut Random) -> usize {
    let class = random.within(1..=CLASSES);
    random.within(1 << (class - 1)..=(1 << class) - 1)
}

fn is_full(store: &Store) -> bool {
    store.objects().len() == MOST_OBJECTS
}

fn store_quota(store: &Store) -> usize {
    store.area_length().map_or(0, quota)
}

fn room(store: &Store) -> usize {
    store_quota(store) - store.volume()
}
