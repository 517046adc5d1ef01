//! The sums (a) to (h), done by hand in the rules, done here by the store;
//! then sums that tell D from what it might be taken for.

use twin::answer::Answer;
use twin::house::{class_of, quota, Name, SHORTEST_AREA};
use twin::map::{map_bytes, read_map};
use twin::store::Store;

/// A store on the shortest area, with calls that are short to write.
struct Desk {
    store: Store,
    area: Vec<u8>,
}

impl Desk {
    fn fresh() -> Desk {
        let (answer, store) = Store::open(SHORTEST_AREA);
        assert_eq!(answer, Answer::Done);
        Desk { store, area: vec![0; SHORTEST_AREA] }
    }

    fn insert(&mut self, name: u16, length: usize) -> Answer {
        self.store.insert(&mut self.area, Name(name), &vec![name as u8; length])
    }

    fn delete(&mut self, name: u16) -> Answer {
        self.store.delete(Name(name))
    }

    fn start(&self, name: u16) -> usize {
        self.store.find(Name(name)).unwrap().start
    }

    /// Drives to rest. Returns each move as name, from, to, with `None` for
    /// each checkpoint.
    fn drive(&mut self) -> Vec<Option<(u16, usize, usize)>> {
        let mut log = Vec::new();
        while self.store.flush_running() {
            if self.store.checkpoint_due() {
                assert_eq!(self.store.step(&mut self.area), Answer::CheckpointDue);
                assert_eq!(self.store.confirm(&mut [0; 2000]), Answer::Done);
                log.push(None);
            } else {
                log.push(Some(self.step()));
            }
        }
        log
    }

    fn step(&mut self) -> (u16, usize, usize) {
        let before = self.store.objects().clone();
        assert_eq!(self.store.step(&mut self.area), Answer::Running);
        let moved: Vec<_> = before
            .iter()
            .filter(|(&name, place)| self.start(name.0) != place.start)
            .map(|(&name, place)| (name.0, place.start, self.start(name.0)))
            .collect();
        assert_eq!(moved.len(), 1);
        moved[0]
    }
}

#[test]
fn a_third_line_of_the_example() {
    let mut desk = Desk::fresh();
    assert_eq!(desk.insert(1, 8), Answer::Done);
    assert_eq!(desk.insert(2, 2), Answer::Done);
    assert_eq!(desk.store.footprint(), 10);
    assert_eq!(desk.store.regions().buffers_from(1), 2);
    assert_eq!(desk.insert(3, 1), Answer::Running);
    // D = 8 and G = 13 + 2 + 8 = 23.
    assert_eq!(desk.start(3), 25);
    assert_eq!(desk.store.footprint(), 26);
    let log = desk.drive();
    let expected = [
        Some((2, 8, 23)),
        None,
        Some((1, 0, 15)),
        None,
        Some((1, 15, 3)),
        None,
        Some((2, 23, 1)),
        Some((3, 25, 0)),
        None,
    ];
    assert_eq!(log, expected);
    assert_eq!(desk.store.footprint(), 13);
}

#[test]
fn b_deleting_the_four() {
    let mut desk = Desk::fresh();
    assert_eq!(desk.insert(1, 16), Answer::Done);
    assert_eq!(desk.insert(2, 4), Answer::Done);
    assert_eq!((desk.start(1), desk.start(2)), (0, 16));
    assert_eq!(desk.store.footprint(), 20);
    assert_eq!(desk.store.regions().boundary(3), 3);
    assert_eq!(desk.delete(2), Answer::Running);
    // D = 16 and G = 20 + 4 + 16 = 40.
    assert_eq!(desk.store.footprint(), 40);
    assert_eq!(desk.drive(), [Some((1, 0, 24)), None, Some((1, 24, 0)), None]);
    assert_eq!(desk.store.footprint(), 20);
}

#[test]
fn c_a_record_stays_until_a_flush() {
    let mut desk = Desk::fresh();
    assert_eq!(desk.insert(1, 16), Answer::Done);
    assert_eq!(desk.insert(2, 2), Answer::Done);
    assert_eq!(desk.delete(2), Answer::Done);
    assert_eq!(desk.store.regions().region(5).used, 4);
    assert_eq!(desk.store.volume(), 16);
    // The class of the records is found below the class of the 16.
    assert_eq!(desk.store.regions().boundary(5), 2);
    assert_eq!(desk.insert(3, 2), Answer::Running);
    // D = 16 and G = 22 + 4 + 16 = 42.
    assert_eq!(desk.start(3), 42);
    assert_eq!(desk.store.footprint(), 44);
    let log = desk.drive();
    let expected = [Some((1, 0, 26)), None, Some((1, 26, 2)), None, Some((3, 42, 0)), None];
    assert_eq!(log, expected);
    assert_eq!(desk.store.footprint(), 22);
}

#[test]
fn d_classes() {
    let lengths = [1, 3, 4, 2_047, 2_048, 4_095];
    assert_eq!(lengths.map(class_of), [1, 2, 3, 11, 12, 12]);
}

#[test]
fn e_quota() {
    assert_eq!(quota(65_536), 24_576);
    assert_eq!(quota(16_384), 3_511);
}

#[test]
fn f_empty_map() {
    let map = map_bytes(std::iter::empty());
    assert_eq!(map, b"RLM\0\x01\0\0");
    assert_eq!(read_map(&map, SHORTEST_AREA), Ok(Vec::new()));
    let mut desk = Desk::fresh();
    assert_eq!(desk.store.confirm(&mut [0; 6]), Answer::ShortBuffer);
    assert_eq!(desk.store.confirm(&mut [0; 7]), Answer::Done);
}

#[test]
fn g_up_to_the_quota() {
    let mut desk = Desk::fresh();
    assert_eq!(desk.insert(1, 3_000), Answer::Done);
    assert_eq!(desk.insert(2, 512), Answer::OverQuota);
    assert_eq!(desk.insert(2, 511), Answer::Done);
    assert_eq!(desk.store.volume(), 3_511);
    assert_eq!(desk.insert(3, 1), Answer::OverQuota);
}

#[test]
fn h_deleting_the_only_object() {
    let mut desk = Desk::fresh();
    assert_eq!(desk.insert(1, 100), Answer::Done);
    assert_eq!(desk.delete(1), Answer::Running);
    assert!(desk.store.checkpoint_due());
    // F = 125, B = 25 and D = 0, so G = 150.
    assert_eq!(desk.store.footprint(), 150);
    assert_eq!(desk.drive(), [None]);
    assert_eq!(desk.store.footprint(), 0);
}

/// F' = 23 + 5 = 28, B = 2 and D = 15, so G = 45; without the new object D
/// would be 8 and G 38.
#[test]
fn the_new_object_may_be_the_longest() {
    let mut desk = Desk::fresh();
    assert_eq!(desk.insert(1, 8), Answer::Done);
    assert_eq!(desk.insert(2, 15), Answer::Running);
    assert_eq!(desk.start(2), 45);
    assert_eq!(desk.store.footprint(), 60);
    let log = desk.drive();
    assert_eq!(log, [Some((1, 0, 37)), None, Some((1, 37, 0)), None, Some((2, 45, 8)), None]);
    assert_eq!(desk.store.footprint(), 28);
}

/// F = 17 + 4 = 21, F' = 8 + 2 = 10, B = 4 and D = 8, so G = 33; with the
/// objects before the request D would be 9 and G 34.
#[test]
fn a_deleted_object_is_not_the_longest() {
    let mut desk = Desk::fresh();
    assert_eq!(desk.insert(1, 9), Answer::Done);
    assert_eq!(desk.insert(2, 8), Answer::Running);
    desk.drive();
    assert_eq!((desk.start(1), desk.start(2)), (0, 9));
    assert_eq!(desk.store.footprint(), 21);
    assert_eq!(desk.delete(1), Answer::Running);
    assert_eq!(desk.store.footprint(), 33);
    assert_eq!(desk.drive(), [Some((2, 9, 25)), None, Some((2, 25, 0)), None]);
    assert_eq!(desk.store.footprint(), 10);
}

/// The 8 of sum (a) is deleted at rest: F = 13, B = 2, and D = 2 though b
/// is 4, so G = 17; with the flushed classes only D would be 0 and G 15.
#[test]
fn the_longest_may_lie_below_the_boundary() {
    let mut desk = Desk::fresh();
    desk.insert(1, 8);
    desk.insert(2, 2);
    assert_eq!(desk.insert(3, 1), Answer::Running);
    desk.drive();
    assert_eq!(desk.store.footprint(), 13);
    assert_eq!(desk.store.regions().boundary(4), 4);
    assert_eq!(desk.delete(1), Answer::Running);
    assert_eq!(desk.store.footprint(), 17);
    assert_eq!(desk.drive(), [None]);
    assert_eq!(desk.store.footprint(), 3);
}

/// F' = 3, B = 0 and D = 1, so G = 4 and a run takes one object; with the
/// greatest length allowed G would be 4098 and a run would take two.
#[test]
fn short_objects_make_short_runs() {
    let mut desk = Desk::fresh();
    assert_eq!(desk.insert(1, 1), Answer::Done);
    assert_eq!(desk.insert(2, 1), Answer::Running);
    desk.drive();
    assert_eq!((desk.start(1), desk.start(2)), (0, 1));
    assert_eq!(desk.insert(3, 1), Answer::Running);
    assert_eq!(desk.start(3), 4);
    assert_eq!(desk.store.footprint(), 5);
    let log = desk.drive();
    let expected = [
        Some((2, 1, 3)),
        None,
        Some((1, 0, 2)),
        None,
        Some((1, 2, 0)),
        None,
        Some((2, 3, 1)),
        None,
        Some((3, 4, 2)),
        None,
    ];
    assert_eq!(log, expected);
    assert_eq!(desk.store.footprint(), 3);
}

/// The order of the refusals: each call here would meet several, and the
/// first in the table is given.
#[test]
fn first_refusal_counts() {
    let mut desk = Desk::fresh();
    desk.insert(1, 16);
    desk.insert(2, 4);
    assert_eq!(desk.delete(2), Answer::Running);
    let mut short = vec![0; SHORTEST_AREA - 1];
    assert_eq!(desk.store.insert(&mut short, Name(0), &[]), Answer::WrongArea);
    assert_eq!(desk.store.step(&mut short), Answer::WrongArea);
    assert_eq!(desk.insert(0, 0), Answer::MidFlush);
    assert_eq!(desk.delete(0), Answer::MidFlush);
    desk.drive();
    assert_eq!(desk.insert(0, 0), Answer::NameZero);
    assert_eq!(desk.insert(1, 0), Answer::WrongLength);
    assert_eq!(desk.insert(1, 4_096), Answer::WrongLength);
    assert_eq!(desk.insert(1, 4_095), Answer::NameHeld);
    assert_eq!(desk.delete(0), Answer::NameZero);
    assert_eq!(desk.delete(9), Answer::NameNotHeld);
    let mut name = 10;
    while desk.store.objects().len() < 256 {
        assert!(desk.insert(name, 1).accepted());
        desk.drive();
        name += 1;
    }
    assert_eq!(desk.insert(name, 4_095), Answer::StoreFull);
    assert_eq!(desk.insert(1, 4_095), Answer::NameHeld);
}

#[test]
fn a_refused_opening_answers_one_to_everything() {
    for length in [0, 5, SHORTEST_AREA - 1, 65_537] {
        let (answer, mut store) = Store::open(length);
        assert_eq!(answer, Answer::WrongArea);
        let mut area = vec![0; length];
        assert_eq!(store.insert(&mut area, Name(1), &[1]), Answer::WrongArea);
        assert_eq!(store.delete(Name(0)), Answer::WrongArea);
        assert_eq!(store.step(&mut area), Answer::WrongArea);
        assert_eq!(store.find(Name(0)), Err(Answer::WrongArea));
        assert_eq!(store.read(&area, &[9], Name(0)), (Answer::WrongArea, &[9][..]));
        let mut buffer = [170; 9];
        assert_eq!(store.confirm(&mut buffer), Answer::WrongArea);
        assert_eq!(buffer, [170; 9]);
        assert_eq!((store.footprint(), store.volume()), (0, 0));
    }
}
