//! Long seeded runs of calls, with a witness that keeps its own record of
//! what was stored and of the last map confirmed. After every call it looks
//! at the area itself: which bytes changed, and whether every page that a
//! host could come back to after a cut is whole.

use std::collections::BTreeMap;

use twin::answer::Answer;
use twin::house::{class_of, quota, Name, Place, CLASSES, LONGEST_OBJECT, MOST_OBJECTS};
use twin::map::{map_length, read_map, LONGEST_MAP};
use twin::random::Random;
use twin::regions::Regions;
use twin::steering::{any_request, Request, Steering};
use twin::store::Store;

type Places = BTreeMap<Name, Place>;

/// What the run has met, so that a test can insist that it met enough.
#[derive(Default)]
struct Met {
    calls: usize,
    flushes: usize,
    most_waits: usize,
    most_objects: usize,
    flushes_without_moves: usize,
    kept_longer_than_live: usize,
    extra_confirmations: usize,
    deepest_drop: usize,
}

struct Witness {
    store: Store,
    area: Vec<u8>,
    /// What each live object should hold.
    pages: BTreeMap<Name, Vec<u8>>,
    /// The last map confirmed: each page with the place it was kept at.
    kept: Vec<(Place, Vec<u8>)>,
    /// Accepted lengths less deleted ones.
    history: usize,
    met: Met,
}

impl Witness {
    fn open(area_length: usize) -> Witness {
        let (answer, store) = Store::open(area_length);
        assert_eq!(answer, Answer::Done);
        Witness {
            store,
            area: vec![0; area_length],
            pages: BTreeMap::new(),
            kept: Vec::new(),
            history: 0,
            met: Met::default(),
        }
    }

    // Calls, each followed by the looks that fit it.

    fn request(&mut self, random: &mut Random, request: Request) -> Answer {
        match request {
            Request::Insert { name, length, .. } => {
                let page = (0..length).map(|_| random.byte()).collect();
                self.insert(name, page)
            }
            Request::Delete { name } => self.delete(name),
        }
    }

    fn insert(&mut self, name: Name, page: Vec<u8>) -> Answer {
        let (before, places) = self.snapshot();
        let expected = self.expected_insert(name, page.len());
        let class = class_of(page.len());
        let regions = self.store.regions().clone();
        let answer = self.store.insert(&mut self.area, name, &page);
        assert_eq!(answer.accepted(), expected.is_none());
        if let Some(refusal) = expected {
            assert_eq!(answer.number(), refusal);
            self.unchanged(&before, &places);
            return answer;
        }
        let place = self.store.find(name).unwrap();
        self.wrote_only(&before, &places, place);
        let spot = spot(&regions, class, page.len());
        check_spot(&regions, &self.store, spot, page.len(), Some(place));
        self.history += page.len();
        self.pages.insert(name, page);
        self.flush_may_have_begun(answer, class, &places, Some((name, place.length)));
        self.look();
        answer
    }

    fn delete(&mut self, name: Name) -> Answer {
        let (before, mut places) = self.snapshot();
        let expected = self.expected_delete(name);
        let regions = self.store.regions().clone();
        let answer = self.store.delete(name);
        assert_eq!(answer.accepted(), expected.is_none());
        assert_eq!(self.area, before, "a delete writes nothing");
        if let Some(refusal) = expected {
            assert_eq!(answer.number(), refusal);
            self.unchanged(&before, &places);
            return answer;
        }
        self.history -= self.pages.remove(&name).unwrap().len();
        let Place { length, .. } = places.remove(&name).unwrap();
        let class = class_of(length);
        check_spot(&regions, &self.store, spot(&regions, class, length), length, None);
        self.flush_may_have_begun(answer, class, &places, None);
        self.look();
        answer
    }

    fn step(&mut self) -> Answer {
        let (before, places) = self.snapshot();
        let due = self.store.checkpoint_due();
        let running = self.store.flush_running();
        let left = self.store.moves_left();
        let answer = self.store.step(&mut self.area);
        if due || !running {
            assert_eq!(answer, if due { Answer::CheckpointDue } else { Answer::Done });
            self.unchanged(&before, &places);
            return answer;
        }
        assert_eq!(answer, Answer::Running);
        assert_eq!(self.store.moves_left(), left - 1);
        let moved: Vec<Place> = self
            .store
            .objects()
            .iter()
            .filter(|(name, place)| places[name] != **place)
            .map(|(_, place)| *place)
            .collect();
        assert_eq!(moved.len(), 1, "a step makes one move");
        self.wrote_only(&before, &places, moved[0]);
        self.look();
        answer
    }

    fn confirm(&mut self, length: usize) -> Answer {
        let (before, places) = self.snapshot();
        let running = self.store.flush_running();
        let due = self.store.checkpoint_due();
        let left = self.store.moves_left();
        let mut buffer = vec![170; length];
        let answer = self.store.confirm(&mut buffer);
        assert_eq!((&self.area, self.store.objects()), (&before, &places));
        assert_eq!(self.store.moves_left(), left);
        let map = map_length(places.len());
        if length < map {
            assert_eq!(answer, Answer::ShortBuffer);
            assert_eq!(buffer, vec![170; length]);
            assert_eq!((self.store.flush_running(), self.store.checkpoint_due()), (running, due));
            return answer;
        }
        assert_eq!(answer, Answer::Done);
        assert!(buffer[map..].iter().all(|&byte| byte == 170));
        let entries = read_map(&buffer[..map], self.area.len()).unwrap();
        assert!(entries.iter().copied().eq(places), "the map is that of the objects now");
        self.kept =
            entries.iter().map(|(name, place)| (*place, self.pages[name].clone())).collect();
        assert!(!self.store.checkpoint_due());
        assert_eq!(self.store.flush_running(), running && !(due && left == 0));
        self.met.extra_confirmations += usize::from(!due);
        self.look();
        answer
    }

    // Looks.

    fn snapshot(&mut self) -> (Vec<u8>, Places) {
        self.met.calls += 1;
        (self.area.clone(), self.store.objects().clone())
    }

    fn unchanged(&self, before: &[u8], places: &Places) {
        assert_eq!(self.area, before);
        assert_eq!(self.store.objects(), places);
        assert_eq!(self.store.volume(), self.history);
    }

    /// One place was written. It missed every place held before the call
    /// and every page of the last map confirmed, and nothing else changed.
    fn wrote_only(&self, before: &[u8], places: &Places, written: Place) {
        assert!(written.end() <= self.area.len());
        assert!(places.values().all(|&place| place.misses(written)), "held now");
        assert!(self.kept.iter().all(|&(place, _)| place.misses(written)), "in the last map");
        assert_eq!(self.area[..written.start], before[..written.start]);
        assert_eq!(self.area[written.end()..], before[written.end()..]);
    }

    /// The refusal an insert should meet, by the witness's own record.
    fn expected_insert(&self, name: Name, length: usize) -> Option<u8> {
        if self.store.flush_running() {
            Some(2)
        } else if name == Name(0) {
            Some(3)
        } else if length == 0 || length > LONGEST_OBJECT {
            Some(4)
        } else if self.pages.contains_key(&name) {
            Some(5)
        } else if self.pages.len() == MOST_OBJECTS {
            Some(7)
        } else if self.history + length > quota(self.area.len()) {
            Some(8)
        } else {
            None
        }
    }

    /// The same for a delete.
    fn expected_delete(&self, name: Name) -> Option<u8> {
        if self.store.flush_running() {
            Some(2)
        } else if name == Name(0) {
            Some(3)
        } else if !self.pages.contains_key(&name) {
            Some(6)
        } else {
            None
        }
    }

    /// If the call began a flush, its steps are known at once, and driving
    /// a copy straight to rest takes just those. So it does with further
    /// confirmations strewn in.
    fn flush_may_have_begun(
        &mut self,
        answer: Answer,
        class: usize,
        old: &Places,
        newcomer: Option<(Name, usize)>,
    ) {
        assert_eq!(answer == Answer::Running, self.store.flush_running());
        if answer != Answer::Running {
            return;
        }
        let longest = self.longest_live();
        let rule = FlushRule::new(self.store.regions(), class, old, newcomer, longest);
        let steps = rule.steps();
        self.met.flushes += 1;
        self.met.flushes_without_moves += usize::from(steps == 0);
        let longer_kept = self.kept.iter().any(|(place, _)| place.length > longest);
        self.met.kept_longer_than_live += usize::from(steps > 0 && longer_kept);
        self.met.deepest_drop = self.met.deepest_drop.max(class - rule.boundary);
        assert_eq!(self.store.moves_left(), steps);
        assert_eq!(self.store.footprint(), rule.overflow_end());
        assert!(self.store.footprint() <= self.area.len(), "the end of overflow is within A");
        let (plain, runs) = self.driven(false);
        rule.check_runs(&runs);
        rule.check_rest(&plain);
        self.met.most_waits = self.met.most_waits.max(runs.len());
        let (strewn, same_runs) = self.driven(true);
        assert_eq!(runs, same_runs);
        assert_eq!((plain.objects(), plain.regions()), (strewn.objects(), strewn.regions()));
    }

    /// The greatest length in the witness's own record, or 0.
    fn longest_live(&self) -> usize {
        self.pages.values().map(Vec::len).max().unwrap_or(0)
    }

    /// A copy driven to rest: the store, and its moves in runs, one run for
    /// each confirmation that was due.
    fn driven(&self, extra: bool) -> (Store, Vec<Vec<(Name, Place)>>) {
        let (mut store, mut area) = (self.store.clone(), self.area.clone());
        let (mut runs, mut run) = (Vec::new(), Vec::new());
        let mut map = [0; LONGEST_MAP];
        while store.flush_running() {
            assert_eq!(store.footprint(), self.store.footprint());
            if store.checkpoint_due() {
                assert_eq!(store.confirm(&mut map), Answer::Done);
                runs.push(std::mem::take(&mut run));
            } else {
                let before = store.objects().clone();
                assert_eq!(store.step(&mut area), Answer::Running);
                let mut moved =
                    store.objects().iter().filter(|(name, place)| before[name] != **place);
                run.extend(moved.next().map(|(&name, &place)| (name, place)));
                if extra && !store.checkpoint_due() {
                    assert_eq!(store.confirm(&mut map), Answer::Done);
                }
            }
        }
        assert_eq!(store.step(&mut area), Answer::Done);
        (store, runs)
    }

    /// What holds after every call.
    fn look(&mut self) {
        self.met.most_objects = self.met.most_objects.max(self.pages.len());
        assert_eq!(self.store.volume(), self.history);
        assert_eq!(self.history, self.pages.values().map(Vec::len).sum::<usize>());
        assert!(self.pages.keys().eq(self.store.objects().keys()));
        for (&name, page) in &self.pages {
            let (answer, read) = self.store.read(&self.area, b"blank", name);
            assert_eq!((answer, read), (Answer::Done, page.as_slice()));
        }
        for (place, page) in &self.kept {
            assert_eq!(&self.area[place.range()], page.as_slice(), "a kept page is whole");
        }
        if self.store.flush_running() {
            assert!(self.store.footprint() <= self.area.len());
        } else {
            assert!(3 * self.store.footprint() <= 5 * self.history, "compact at rest");
            assert_eq!(self.store.footprint(), self.store.regions().end());
            sound_at_rest(&self.store);
        }
    }
}

// Where an object or a record should go, from the regions before the call.

#[derive(Clone, Copy)]
enum Spot {
    NewClass,
    Buffer(usize),
    Flush,
}

fn spot(regions: &Regions, class: usize, length: usize) -> Spot {
    let mut none_yet = true;
    for number in class..=CLASSES {
        let region = regions.region(number);
        if region.payload > 0 && region.buffer - region.used >= length {
            return Spot::Buffer(number);
        }
        none_yet &= region.payload == 0;
    }
    if none_yet {
        Spot::NewClass
    } else {
        Spot::Flush
    }
}

/// One region changed as the spot says, or none did; and a new object that
/// made no flush lies there.
fn check_spot(before: &Regions, store: &Store, spot: Spot, length: usize, new: Option<Place>) {
    let class = class_of(length);
    assert_eq!(store.flush_running(), matches!(spot, Spot::Flush));
    for number in 1..=CLASSES {
        let mut expected = *before.region(number);
        match spot {
            Spot::NewClass if number == class => {
                expected.payload = length;
                expected.buffer = length / 4;
            }
            Spot::Buffer(taken) if number == taken => {
                expected.lowest = match expected.lowest {
                    0 => class,
                    lowest => lowest.min(class),
                };
                expected.used += length;
            }
            _ => {}
        }
        assert_eq!(*store.regions().region(number), expected);
    }
    let start = match spot {
        Spot::NewClass => before.end(),
        Spot::Buffer(taken) => before.buffer_start(taken) + before.region(taken).used,
        Spot::Flush => return,
    };
    assert!(new.map_or(true, |place| place.start == start));
}

// What a flush should do, worked out from where it starts.

struct FlushRule {
    boundary: usize,
    /// Names and lengths in rising address order.
    payload: Vec<(Name, usize)>,
    buffered: Vec<(Name, usize)>,
    newcomer: Option<(Name, usize)>,
    /// The old buffers and the longest live object together: B + D.
    spare: usize,
    overflow_start: usize,
}

impl FlushRule {
    /// The boundary is looked for from the top, the other way round than
    /// the store does; buffers are told by their addresses.
    fn new(
        regions: &Regions,
        class: usize,
        old: &Places,
        newcomer: Option<(Name, usize)>,
        longest: usize,
    ) -> FlushRule {
        let boundary = (1..=class).rev().find(|&boundary| clean(regions, boundary)).unwrap();
        let (mut payload, mut buffered) = (Vec::new(), Vec::new());
        let mut live = [0; CLASSES + 1];
        let mut by_start: Vec<_> = old.iter().collect();
        by_start.sort_by_key(|(_, place)| place.start);
        for (&name, &place) in by_start {
            let number =
                (1..=CLASSES).rfind(|&number| regions.payload_start(number) <= place.start);
            let region = number.unwrap();
            if region < boundary {
                continue;
            }
            live[place.class()] += place.length;
            let list = if place.start < regions.buffer_start(region) {
                &mut payload
            } else {
                &mut buffered
            };
            list.push((name, place.length));
        }
        if let Some((_, length)) = newcomer {
            live[class_of(length)] += length;
        }
        let new_size: usize = live.iter().map(|volume| volume + volume / 4).sum();
        let new_end = regions.payload_start(boundary) + new_size;
        let buffers: usize = (boundary..=CLASSES).map(|number| regions.region(number).buffer).sum();
        let spare = buffers + longest;
        let overflow_start = regions.end().max(new_end) + spare;
        FlushRule { boundary, payload, buffered, newcomer, spare, overflow_start }
    }

    fn overflow(&self) -> Vec<(Name, usize)> {
        self.buffered.iter().copied().chain(self.newcomer).collect()
    }

    fn steps(&self) -> usize {
        self.buffered.len() + 2 * self.payload.len() + self.overflow().len()
    }

    fn overflow_end(&self) -> usize {
        self.overflow_start + self.overflow().iter().map(|(_, length)| length).sum::<usize>()
    }

    /// The moves are the four lists in order, and the runs are cut where
    /// they have to be and nowhere else.
    fn check_runs(&self, runs: &[Vec<(Name, Place)>]) {
        let moves: Vec<(Name, Place)> = runs.concat();
        let names: Vec<Name> = moves.iter().map(|&(name, _)| name).collect();
        let overflow = self.overflow();
        let lists = [&self.buffered, &self.payload, &self.payload, &overflow];
        let mut expected: Vec<Vec<Name>> =
            lists.map(|list| list.iter().map(|&(name, _)| name).collect()).to_vec();
        expected[1].reverse();
        assert_eq!(names, expected.concat());
        if moves.is_empty() {
            assert_eq!(runs.len(), 1, "one checkpoint without moves");
            return;
        }
        let (first, rest) = moves.split_at(self.buffered.len());
        let (second, rest) = rest.split_at(self.payload.len());
        let (third, fourth) = rest.split_at(self.payload.len());
        self.check_targets(first, second);
        let mut cut: Vec<&[(Name, Place)]> = Vec::new();
        cut.push(first);
        cut.extend(cut_by(second, |run| {
            run.iter().map(|(_, place)| place.length).sum::<usize>() <= self.spare
        }));
        cut.extend(cut_by(third, |run| {
            run.iter().map(|(_, place)| place.end()).max().unwrap()
                - run.iter().map(|(_, place)| place.start).min().unwrap()
                <= self.spare
        }));
        cut.push(fourth);
        cut.retain(|run| !run.is_empty());
        assert_eq!(runs, cut);
    }

    /// Overflow is filled upwards from its start, the pack downwards.
    fn check_targets(&self, first: &[(Name, Place)], second: &[(Name, Place)]) {
        let mut next = self.overflow_start;
        for (_, place) in first {
            assert_eq!(place.start, next);
            next = place.end();
        }
        let mut next = self.overflow_start;
        for (_, place) in second {
            assert_eq!(place.end(), next);
            next = place.start;
        }
    }

    /// At rest each flushed payload holds its old payload objects, then its
    /// overflow objects, without gaps from its start to its end.
    fn check_rest(&self, store: &Store) {
        let regions = store.regions();
        let all: Vec<(Name, usize)> = [self.payload.clone(), self.overflow()].concat();
        for class in self.boundary..=CLASSES {
            let mut next = regions.payload_start(class);
            for &(name, length) in all.iter().filter(|&&(_, length)| class_of(length) == class) {
                assert_eq!(store.find(name), Ok(Place { start: next, length }));
                next += length;
            }
            assert_eq!(next, regions.buffer_start(class));
            assert_eq!(regions.region(class).used, 0);
        }
    }
}

/// The runs of a list when each takes as many as `fits` allows.
fn cut_by<T>(list: &[T], fits: impl Fn(&[T]) -> bool) -> Vec<&[T]> {
    let mut runs = Vec::new();
    let mut rest = list;
    while !rest.is_empty() {
        let count = (1..=rest.len()).take_while(|&count| fits(&rest[..count])).count();
        assert!(count > 0, "one object always fits");
        let (run, left) = rest.split_at(count);
        runs.push(run);
        rest = left;
    }
    runs
}

// Soundness at rest.

fn sound_at_rest(store: &Store) {
    let regions = store.regions();
    let objects = store.objects();
    assert!(objects.len() <= MOST_OBJECTS);
    assert!(objects
        .iter()
        .all(|(&name, place)| name != Name(0) && (1..=LONGEST_OBJECT).contains(&place.length)));
    let volume: usize = objects.values().map(|place| place.length).sum();
    assert_eq!(store.volume(), volume);
    assert!(volume <= quota(store.area_length().unwrap()));
    for class in 1..=CLASSES {
        let region = regions.region(class);
        assert_eq!(region.buffer, region.payload / 4);
        assert!(region.used <= region.buffer);
        let lowest = if region.used == 0 { 0..=0 } else { 1..=class };
        assert!(lowest.contains(&region.lowest));
    }
    let mut places: Vec<Place> = objects.values().copied().collect();
    places.sort_by_key(|place| place.start);
    assert!(places.windows(2).all(|pair| pair[0].end() <= pair[1].start));
    assert!(places.iter().all(|&place| well_placed(regions, place)));
    volumes_cover_payloads(regions, &places);
}

/// In the payload of its class, or in the used part of a buffer that may
/// hold its class.
fn well_placed(regions: &Regions, place: Place) -> bool {
    let class = place.class();
    let within = |start: usize, size: usize| start <= place.start && place.end() <= start + size;
    within(regions.payload_start(class), regions.region(class).payload)
        || (class..=CLASSES).any(|number| {
            let region = regions.region(number);
            within(regions.buffer_start(number), region.used) && region.lowest <= class
        })
}

/// No buffer numbered `class` or above holds anything of a lower class.
fn clean(regions: &Regions, class: usize) -> bool {
    (class..=CLASSES).all(|number| {
        let region = regions.region(number);
        region.used == 0 || region.lowest >= class
    })
}

/// Between two clean classes, and above each, the live volume is at least
/// the payloads less what the buffers have used.
fn volumes_cover_payloads(regions: &Regions, places: &[Place]) {
    let clean: Vec<usize> = (1..=CLASSES).filter(|&class| clean(regions, class)).collect();
    for (index, &from) in clean.iter().enumerate() {
        for &to in clean[index + 1..].iter().chain(&[CLASSES + 1]) {
            let live: usize = places
                .iter()
                .filter(|place| (from..to).contains(&place.class()))
                .map(|place| place.length)
                .sum();
            let payloads: usize = (from..to).map(|class| regions.region(class).payload).sum();
            let used: usize = (from..to).map(|class| regions.region(class).used).sum();
            assert!(live + used >= payloads, "classes {from} to {to}");
        }
    }
}

// The runs.

/// Drives a store of this area for so many calls, in mid-flush too.
fn long_run(seed: u64, area_length: usize, calls: usize) -> Met {
    let mut random = Random::new(seed);
    let mut steering = Steering::new();
    let mut witness = Witness::open(area_length);
    while witness.met.calls < calls {
        let map = map_length(witness.pages.len());
        match random.below(100) {
            0..=2 => {
                witness.confirm(map + random.pick(&[0, 1, 30]));
            }
            3 => {
                witness.confirm(random.below(map));
            }
            4 => {
                witness.step();
            }
            5 | 6 if witness.store.flush_running() => {
                let request = any_request(&mut random, &witness.store);
                let answer = witness.request(&mut random, request);
                assert_eq!(answer, Answer::MidFlush);
            }
            _ if witness.store.checkpoint_due() => {
                witness.confirm(map);
            }
            _ if witness.store.flush_running() => {
                witness.step();
            }
            _ => {
                let request = steering.request(&mut random, &witness.store);
                witness.request(&mut random, request);
            }
        }
    }
    witness.met
}

/// Enough of everything was met for the looks to mean something.
fn enough(met: &Met) {
    assert!(met.flushes > 100, "{}", met.flushes);
    assert!(met.flushes_without_moves > 0);
    assert!(met.kept_longer_than_live > 10, "{}", met.kept_longer_than_live);
    assert!(met.extra_confirmations > 100);
    assert!(met.deepest_drop >= 3, "{}", met.deepest_drop);
    assert!(met.most_objects >= 200, "{}", met.most_objects);
}

#[test]
fn shortest_area() {
    enough(&long_run(1, 16_384, 20_000));
}

#[test]
fn longest_area() {
    let met = long_run(2, 65_536, 20_000);
    enough(&met);
    assert!(met.most_waits > 6, "runs are cut: {}", met.most_waits);
}

#[test]
fn area_between() {
    enough(&long_run(3, 31_007, 15_000));
}
