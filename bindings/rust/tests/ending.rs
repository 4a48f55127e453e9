//! A crew of sixteen, of which all but one wait, ends at once: by a stop, a panic, or a refused insertion.

use klsm::{End, Insert, Item, Member, Piece, Queue, Work};
use std::panic::{catch_unwind, resume_unwind, AssertUnwindSafe};
use std::sync::Mutex;
use std::thread;
use std::time::{Duration, Instant};

const THREADS: usize = 16;

/// What the threads share: their work, and when the one that had the only piece left it.
struct Crew {
    work: Work,
    left_at: Mutex<Option<Instant>>,
}

/// What a thread does with the piece.
type Act = fn(&Crew, Piece<'_, Item>);

impl Crew {
    /// The others wait by now, and sleep for as long as they ever do.
    fn wait(&self) {
        thread::sleep(Duration::from_millis(20));
        *self.left_at.lock().unwrap() = Some(Instant::now());
    }

    fn work_by(&self, mut member: Member<'_>, act: Act) -> End {
        loop {
            match self.work.next(&mut member) {
                Ok(piece) => act(self, piece),
                Err(end) => return end,
            }
        }
    }

    /// What each thread saw at last, and the time until the last one ended.
    fn run(&self, act: Act) -> (Vec<End>, Duration) {
        let mut queue = Queue::builder(THREADS).open().unwrap();
        let mut first = queue.members().next().unwrap();
        self.work.insert(&mut first, 1, 1).unwrap();
        let ends = thread::scope(|scope| {
            let spawn = |member| scope.spawn(move || self.work_by(member, act));
            let running: Vec<_> = queue.members().map(spawn).collect();
            let join = |thread: thread::ScopedJoinHandle<_>| thread.join().unwrap();
            running.into_iter().map(join).collect()
        });
        let left_at = self.left_at.lock().unwrap().unwrap();
        (ends, left_at.elapsed())
    }
}

/// All see this end, within ten milliseconds in the best of some rounds, since other programs run too. So many
/// pieces stay open and so many are given up.
fn all_end(act: Act, end: End, left: u64, given_up: u64) {
    let is_soon = (0..50).any(|_| {
        let crew = Crew {
            work: Work::new(),
            left_at: Mutex::new(None),
        };
        let (ends, took) = crew.run(act);
        assert_eq!(ends, [end; THREADS]);
        assert_eq!((crew.work.left(), crew.work.given_up()), (left, given_up));
        took < Duration::from_millis(10)
    });
    assert!(is_soon, "no crew ended within ten milliseconds");
}

#[test]
fn by_a_stop() {
    fn act(crew: &Crew, piece: Piece<'_, Item>) {
        crew.wait();
        crew.work.stop();
        std::mem::forget(piece); // it stays open
    }
    all_end(act, End::Stopped, 1, 0);
}

#[test]
fn by_a_panic() {
    fn act(crew: &Crew, piece: Piece<'_, Item>) {
        let panics = AssertUnwindSafe(|| {
            let _piece = piece;
            crew.wait();
            resume_unwind(Box::new("what follows cannot be made"));
        });
        assert!(catch_unwind(panics).is_err());
    }
    all_end(act, End::Done, 0, 1);
}

/// What has no room, as a member of a full queue.
struct NoRoom;

impl Insert for NoRoom {
    type Load = u64;
    type Error = &'static str;

    fn insert(&mut self, _: u64, _: u64) -> Result<(), &'static str> {
        Err("no room")
    }
}

#[test]
fn by_a_refused_insertion() {
    fn follow(crew: &Crew, piece: Piece<'_, Item>) -> Result<(), &'static str> {
        crew.wait();
        crew.work.insert(&mut NoRoom, piece.key + 1, piece.load)?;
        piece.done();
        Ok(())
    }
    fn act(crew: &Crew, piece: Piece<'_, Item>) {
        assert_eq!(follow(crew, piece), Err("no room"));
    }
    all_end(act, End::Done, 0, 1);
}
