//! What a sharing moves and a deletion alone does not, by each kind of member; and a crew that finds in time what one
//! of its threads has shared.

use klsm::{Item, Queue, TypedQueue, Work};
use std::sync::atomic::{AtomicU64, Ordering::Relaxed};
use std::thread;
use std::time::{Duration, Instant};

const ITEMS: u64 = 100;

/// The calls of a member of any kind, each answered by its key.
trait Member {
    fn insert(&mut self, key: u64);
    fn delete_min(&mut self) -> Option<u64>;
    fn delete_min_alone(&mut self) -> Option<u64>;
    fn try_delete_min_alone(&mut self) -> Option<u64>;
    fn share(&mut self) -> usize;
    fn try_share(&mut self) -> usize;
    fn front(&mut self) -> u64;
}

/// `of!(TYPE, PAYLOAD, KEY)`: what a payload is made of, and the key that an item has by its payload too.
macro_rules! of {
    ($member:ty, $payload:expr, $key:expr) => {
        impl Member for $member {
            fn insert(&mut self, key: u64) {
                assert!(self.insert(key, $payload(key)).is_ok());
            }
            fn delete_min(&mut self) -> Option<u64> {
                self.delete_min().map($key)
            }
            fn delete_min_alone(&mut self) -> Option<u64> {
                self.delete_min_alone().map($key)
            }
            fn try_delete_min_alone(&mut self) -> Option<u64> {
                self.try_delete_min_alone().unwrap().map($key)
            }
            fn share(&mut self) -> usize {
                self.share().unwrap()
            }
            fn try_share(&mut self) -> usize {
                self.try_share().unwrap()
            }
            fn front(&mut self) -> u64 {
                self.front()
            }
        }
    };
}

fn key_of(item: Item) -> u64 {
    assert_eq!(item.load, item.key + 7);
    item.key
}

fn key_of_text(item: klsm::TypedItem<String>) -> u64 {
    assert_eq!(item.payload, item.key.to_string());
    item.key
}

of!(klsm::Member<'_>, |key: u64| key + 7, key_of);
of!(klsm::OwnedMember, |key: u64| key + 7, key_of);
of!(klsm::TypedMember<'_, String>, |key: u64| key.to_string(), key_of_text);
of!(klsm::OwnedTypedMember<String>, |key: u64| key.to_string(), key_of_text);

/// Two members of k = 8 and a refill of 4, in what each kind of queue calls them.
fn with_each_kind(test: fn(&mut dyn Member, &mut dyn Member)) {
    let open = || Queue::builder(2).k(8).refill(4).clone();
    let typed = || -> TypedQueue<String> { open().open_typed().unwrap() };
    fn both<M: Member>(members: impl IntoIterator<Item = M>, test: fn(&mut dyn Member, &mut dyn Member)) {
        let mut members = members.into_iter();
        let (mut one, mut other) = (members.next().unwrap(), members.next().unwrap());
        test(&mut one, &mut other);
    }
    both(open().open().unwrap().members(), test);
    both(open().open().unwrap().into_members(), test);
    both(typed().members(), test);
    both(typed().into_members(), test);
}

#[test]
fn all_own_items_are_shared_once() {
    with_each_kind(|one, other| {
        for key in (0..8).rev() {
            one.insert(key);
        }
        assert_eq!(other.front(), u64::MAX);
        assert_eq!((one.share(), one.share(), one.try_share()), (8, 0, 0));
        assert_eq!(other.front(), 0);
        for key in 0..8 {
            assert_eq!(other.delete_min(), Some(key));
        }
        one.insert(3);
        assert_eq!((one.try_share(), one.try_share(), one.share()), (1, 0, 0));
        assert_eq!((other.delete_min(), other.delete_min()), (Some(3), None));
    });
}

/// All items are shared.
fn fill(member: &mut dyn Member) {
    for key in 0..ITEMS {
        member.insert(key);
    }
    member.share();
    assert_eq!((member.share(), member.front()), (0, 0));
}

#[test]
fn what_a_refill_brought_home_goes_back() {
    with_each_kind(|one, other| {
        fill(one);
        assert_eq!(other.delete_min(), Some(0));
        assert_eq!(one.delete_min(), Some(5));
        assert_eq!((other.share(), one.front()), (4, 1));
        let found = [1, 2, 3, 4].map(|_| one.delete_min());
        assert_eq!(found, [Some(1), Some(2), Some(3), Some(4)]);
    });
}

#[test]
fn a_deletion_alone_brings_nothing_home() {
    with_each_kind(|one, other| {
        assert_eq!((one.delete_min_alone(), one.try_delete_min_alone()), (None, None));
        fill(one);
        assert_eq!(other.delete_min_alone(), Some(0));
        assert_eq!((other.share(), other.front()), (0, 1));
        assert_eq!(one.try_delete_min_alone(), Some(1));
        assert_eq!((one.share(), one.front()), (0, 2));
        assert_eq!((other.delete_min(), one.delete_min_alone()), (Some(2), Some(7)));
        assert_eq!(other.try_delete_min_alone(), Some(3));
    });
}

/// What a crew of four has in common. The first one takes an item by a refill.
struct Crew {
    work: Work,
    taken: AtomicU64,
    done: AtomicU64,
    /// Whether the first one has shared, and how many of its items others found before and since.
    shared: AtomicU64,
    early: AtomicU64,
    found: AtomicU64,
}

const PARKED: u64 = 16;

fn pause() {
    thread::sleep(Duration::from_micros(50));
}

impl Crew {
    /// It shares once the others have done two hundred pieces, and works on for a second at most, until they have
    /// found what it shared. How long that took.
    fn work_for_long(&self, member: &mut klsm::Member<'_>) -> Duration {
        let piece = self.work.next(member).unwrap();
        assert_eq!(piece.key, 0);
        self.taken.store(1, Relaxed);
        while self.done.load(Relaxed) < 200 {
            pause();
        }
        let begin = Instant::now();
        self.shared.store(1, Relaxed);
        assert_eq!(member.share(), Ok(PARKED as usize));
        while self.found.load(Relaxed) < PARKED && begin.elapsed() < Duration::from_secs(1) {
            pause();
        }
        let took = begin.elapsed();
        self.work.stop();
        piece.done();
        took
    }

    fn work_on_others(&self, member: &mut klsm::Member<'_>) {
        while self.taken.load(Relaxed) == 0 {
            pause();
        }
        while let Ok(piece) = self.work.next(member) {
            if piece.key <= PARKED && self.shared.load(Relaxed) == 0 {
                self.early.fetch_add(1, Relaxed);
            } else if piece.key <= PARKED {
                self.found.fetch_add(1, Relaxed);
            }
            pause();
            self.done.fetch_add(1, Relaxed);
            piece.done();
        }
    }
}

/// Within ten milliseconds in the best of some rounds, since other programs run too.
#[test]
fn a_crew_finds_what_one_of_its_threads_shared() {
    let is_soon = (0..20).any(|_| {
        let [taken, done, shared, early, found] = [0; 5].map(AtomicU64::new);
        let work = Work::new();
        let crew = Crew { work, taken, done, shared, early, found };
        // A balance would let them find some before.
        let mut queue = Queue::builder(4).balance(0).open().unwrap();
        let mut first = queue.members().nth(1).unwrap();
        for key in 0..40_000 {
            crew.work.insert(&mut first, key, 0).unwrap();
        }
        first.share().unwrap();
        let mut members = queue.members();
        let mut busy = members.next().unwrap();
        let took = thread::scope(|scope| {
            for mut member in members {
                let crew = &crew;
                scope.spawn(move || crew.work_on_others(&mut member));
            }
            crew.work_for_long(&mut busy)
        });
        assert_eq!((crew.early.into_inner(), crew.found.into_inner()), (0, PARKED));
        took < Duration::from_millis(10)
    });
    assert!(is_soon, "they found it later");
}
