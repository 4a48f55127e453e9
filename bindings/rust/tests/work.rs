//! The count of open work: what opens and closes a piece, and what asks for more while there is some.

use klsm::{DeleteMin, End, Insert, Work};
use std::cell::Cell;
use std::panic::{catch_unwind, AssertUnwindSafe};
use std::sync::atomic::{AtomicU64, Ordering::Relaxed};
use std::thread;
use std::time::{Duration, Instant};

/// Waits until no work is open, for ten seconds at most.
fn wait(work: &Work) {
    let begin = Instant::now();
    while work.left() > 0 {
        assert!(begin.elapsed() < Duration::from_secs(10), "work stays open");
        thread::yield_now();
    }
}

/// What was written before a piece was done is seen by who finds that all is.
#[test]
fn what_the_others_wrote_is_seen() {
    for _ in 0..200 {
        let work = Work::new();
        let written = [0, 1, 2].map(AtomicU64::new);
        work.open(written.len() as u64);
        thread::scope(|scope| {
            for number in &written {
                let work = &work;
                scope.spawn(move || {
                    number.fetch_add(10, Relaxed);
                    work.done();
                });
            }
            wait(&work);
            let seen = written.iter().map(|number| number.load(Relaxed));
            assert_eq!(seen.sum::<u64>(), 33);
        });
    }
}

/// A source that answers what it is told, and does something before its last answer.
struct Told<'work> {
    answers: Vec<Option<u64>>,
    last: Box<dyn FnMut() + 'work>,
}

impl DeleteMin for Told<'_> {
    type Item = u64;

    fn delete_min(&mut self) -> Option<u64> {
        let answer = self.answers.pop().expect("one asks too often");
        if self.answers.is_empty() {
            (self.last)();
        }
        answer
    }
}

/// What is found by a source with these answers, the last one first.
fn found(work: &Work, answers: &[Option<u64>], last: impl FnMut()) -> Result<u64, End> {
    let answers = answers.to_vec();
    let last = Box::new(last);
    let mut told = Told { answers, last };
    let found = work.next(&mut told).map(|piece| {
        let found = *piece;
        piece.done();
        found
    });
    assert!(told.answers.is_empty(), "one asks too seldom");
    found
}

#[test]
fn one_asks_while_nothing_is_found_and_work_is_open() {
    let nothing = || ();
    for open in [1, 5] {
        let work = Work::default();
        work.open(open);
        assert_eq!(found(&work, &[Some(7)], nothing), Ok(7));
        assert_eq!(work.left(), open - 1);
        work.open(1);
        assert_eq!(found(&work, &[Some(7), None, None, None], nothing), Ok(7));
        assert_eq!(work.left(), open - 1);
    }
    let work = Work::new();
    assert_eq!(found(&work, &[None], nothing), Err(End::Done));
    work.open(1);
    assert_eq!(found(&work, &[None; 3], || work.done()), Err(End::Done));
    assert_eq!((work.left(), work.given_up()), (0, 0));
    work.open(1);
    assert_eq!(found(&work, &[None; 3], || work.give_up()), Err(End::Done));
    assert_eq!((work.left(), work.given_up()), (0, 1));
}

/// After 200 pauses who waits sleeps: it sees the stop then too.
#[test]
fn a_stop_ends_who_waits_and_who_asks() {
    for asked in [1, 2, 150, 210] {
        let work = Work::new();
        work.open(1);
        assert!(!work.is_stopped());
        let nothing = vec![None; asked];
        assert_eq!(found(&work, &nothing, || work.stop()), Err(End::Stopped));
        assert!(work.is_stopped());
        // Nor is it taken for the end of the work where the last piece is closed then.
        let work = Work::new();
        work.open(1);
        let last = || {
            work.stop();
            work.done();
        };
        assert_eq!(found(&work, &nothing, last), Err(End::Stopped));
        work.open(1);
        // What is there is not asked for any more.
        let mut told = Told {
            answers: vec![Some(7)],
            last: Box::new(|| ()),
        };
        assert_eq!(work.next(&mut told).unwrap_err(), End::Stopped);
        assert_eq!((told.answers.len(), work.left()), (1, 1));
    }
}

#[test]
fn more_that_is_closed_than_was_opened_is_told() {
    let work = Work::new();
    work.done();
    assert_eq!(found(&work, &[None], || ()), Err(End::Miscounted));
    assert_eq!(work.left(), 0);
    work.open(1);
    assert_eq!(found(&work, &[None], || ()), Err(End::Done));
    work.open(1);
    work.done();
    work.give_up();
    assert_eq!(found(&work, &[None], || ()), Err(End::Miscounted));
}

#[test]
fn an_end_has_a_text() {
    let texts = [End::Done, End::Stopped, End::Miscounted].map(|end| {
        let error: Box<dyn std::error::Error + Send + Sync> = end.into();
        error.to_string()
    });
    let expected = [
        "no work is open",
        "the work was stopped",
        "more work was closed than was opened",
    ];
    assert_eq!(texts, expected);
}

/// Gives the number 7 each time.
struct Sevens;

impl DeleteMin for Sevens {
    type Item = Box<u64>;

    fn delete_min(&mut self) -> Option<Box<u64>> {
        Some(Box::new(7))
    }
}

#[test]
fn a_piece_is_done_or_given_up_once() {
    let work = Work::new();
    work.open(5);
    let counts = || (work.left(), work.given_up());
    let mut piece = work.next(&mut Sevens).unwrap();
    **piece += 1;
    assert_eq!(
        (format!("{piece:?}"), counts()),
        ("Piece(8)".into(), (5, 0))
    );
    piece.done();
    assert_eq!(counts(), (4, 0));
    drop(work.next(&mut Sevens).unwrap());
    assert_eq!(counts(), (3, 1));
    let (item, piece) = work.next(&mut Sevens).unwrap().into_parts();
    assert_eq!((*item, counts()), (7, (3, 1)));
    piece.done();
    assert_eq!(counts(), (2, 1));
    let (_item, piece) = work.next(&mut Sevens).unwrap().into_parts();
    drop(piece);
    assert_eq!(counts(), (1, 2));
    let panics = || {
        let _piece = work.next(&mut Sevens).unwrap();
        panic!("a piece of work panics");
    };
    assert!(catch_unwind(panics).is_err());
    assert_eq!(counts(), (0, 3));
}

/// An item that looks, when it is dropped, whether its piece is still open.
struct Looks<'work>(&'work Work, &'work Cell<u64>);

impl Drop for Looks<'_> {
    fn drop(&mut self) {
        self.1.set(self.1.get() + self.0.left());
    }
}

struct Items<'work>(&'work Work, &'work Cell<u64>);

impl<'work> DeleteMin for Items<'work> {
    type Item = Looks<'work>;

    fn delete_min(&mut self) -> Option<Looks<'work>> {
        Some(Looks(self.0, self.1))
    }
}

#[test]
fn an_item_goes_before_its_piece_is_closed() {
    let (work, seen) = (Work::new(), Cell::new(0));
    work.open(1);
    work.next(&mut Items(&work, &seen)).unwrap().done();
    assert_eq!((seen.get(), work.left(), work.given_up()), (1, 0, 0));
    work.open(1);
    drop(work.next(&mut Items(&work, &seen)).unwrap());
    assert_eq!((seen.get(), work.left(), work.given_up()), (2, 0, 1));
}

/// Answers an insertion as it is told, and keeps how much work was open.
struct Place<'work> {
    work: &'work Work,
    answer: fn(String) -> Result<(), String>,
    open: u64,
}

impl Insert for Place<'_> {
    type Load = String;
    type Error = String;

    fn insert(&mut self, key: u64, load: String) -> Result<(), String> {
        assert_eq!(key, 5);
        self.open = self.work.left();
        (self.answer)(load)
    }
}

#[test]
fn a_piece_is_opened_before_its_insertion() {
    let work = Work::new();
    let insert = |answer| {
        let mut place = Place {
            work: &work,
            answer,
            open: 0,
        };
        let inserted = work.insert(&mut place, 5, "load".to_string());
        (inserted, place.open, work.left(), work.given_up())
    };
    assert_eq!(insert(|_| Ok(())), (Ok(()), 1, 1, 0));
    assert_eq!(insert(|_| Ok(())), (Ok(()), 2, 2, 0));
    let refused = Err("load".to_string());
    assert_eq!(insert(Err), (refused, 3, 2, 0));
    let panics = AssertUnwindSafe(|| insert(|load| panic!("{load} is not inserted")));
    assert!(catch_unwind(panics).is_err());
    assert_eq!((work.left(), work.given_up()), (2, 1));
}

#[test]
fn the_count_is_that_of_the_open_pieces() {
    static WORK: Work = Work::new();
    assert_eq!(WORK.left(), 0);
    WORK.open(0);
    assert_eq!(WORK.left(), 0);
    WORK.open(1);
    WORK.open(3);
    assert_eq!(WORK.left(), 4);
    for left in [3, 2, 1, 0] {
        WORK.done();
        assert_eq!(WORK.left(), left);
    }
    let text = "Work { left: 0, given_up: 0, is_stopped: false }";
    assert_eq!(format!("{WORK:?}"), text);
    assert_eq!(std::mem::align_of::<Work>(), 128);
}

/// Four times as many threads as there are shares, so that some have one in common.
#[test]
fn as_many_threads_count_as_there_are() {
    let work = Work::new();
    let all = &std::sync::Barrier::new(256);
    thread::scope(|scope| {
        for _ in 0..256 {
            scope.spawn(|| {
                all.wait();
                for _ in 0..10_000 {
                    work.open(3);
                    work.done();
                    work.give_up();
                }
                all.wait(); // until then each has an address of its own
            });
        }
    });
    assert_eq!((work.left(), work.given_up()), (2_560_000, 2_560_000));
}
