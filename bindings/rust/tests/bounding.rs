//! Bounds and rests, by each kind of member, and beside threads that delete.

use klsm::{Bound, Busy, Queue, TypedQueue};
use std::sync::atomic::{AtomicU64, Ordering::SeqCst};
use std::thread;

const ITEMS: u64 = 20_000;

/// The calls of a member of any kind.
trait Member {
    fn insert(&mut self, key: u64);
    fn delete_min(&mut self) -> Option<u64>;
    fn bound(&mut self) -> Bound;
    fn try_bound(&mut self) -> Result<Bound, Busy>;
    fn rest(&mut self);
    fn try_rest(&mut self) -> Result<(), Busy>;
}

macro_rules! of {
    ($member:ty, $payload:expr) => {
        impl Member for $member {
            fn insert(&mut self, key: u64) {
                assert!(self.insert(key, $payload(key)).is_ok());
            }
            fn delete_min(&mut self) -> Option<u64> {
                self.delete_min().map(|item| item.key)
            }
            fn bound(&mut self) -> Bound {
                self.bound()
            }
            fn try_bound(&mut self) -> Result<Bound, Busy> {
                self.try_bound()
            }
            fn rest(&mut self) {
                self.rest();
            }
            fn try_rest(&mut self) -> Result<(), Busy> {
                self.try_rest()
            }
        }
    };
}

of!(klsm::Member<'_>, |key: u64| key);
of!(klsm::OwnedMember, |key: u64| key);
of!(klsm::TypedMember<'_, String>, |key: u64| key.to_string());
of!(klsm::OwnedTypedMember<String>, |key: u64| key.to_string());

const NONE: u64 = u64::MAX;

/// Two members count each other's items, and know what the other one works at.
fn counts_all<M: Member>(members: impl IntoIterator<Item = M>) {
    let mut members = members.into_iter();
    let (mut one, mut other) = (members.next().unwrap(), members.next().unwrap());
    let bound = |queue, work, items| Bound { queue, work, items };
    assert_eq!(one.bound(), bound(NONE, NONE, 0));
    other.insert(7);
    let found = bound(7, NONE, 1);
    assert_eq!((one.bound(), other.try_bound()), (found, Ok(found)));
    one.insert(9);
    one.insert(5);
    let found = bound(5, NONE, 3);
    assert_eq!((other.bound(), one.try_bound()), (found, Ok(found)));
    assert_eq!(one.delete_min(), Some(5));
    let found = bound(7, 5, 2);
    assert_eq!((other.bound(), one.bound()), (found, found));
    assert_eq!(other.delete_min(), Some(7));
    assert_eq!(other.bound(), bound(9, 5, 1));
    one.rest();
    assert_eq!(one.bound(), bound(9, 7, 1));
    assert_eq!(other.try_rest(), Ok(()));
    assert_eq!(one.bound(), bound(9, NONE, 1));
    assert_eq!(other.delete_min(), Some(9));
    assert_eq!(one.bound(), bound(NONE, 9, 0));
    assert_eq!(other.delete_min(), None);
    assert_eq!(one.bound(), bound(NONE, NONE, 0));
}

#[test]
fn items_of_all_members_count() {
    let open = || Queue::builder(2).k(8).refill(4).clone();
    let typed = || -> TypedQueue<String> { open().open_typed().unwrap() };
    counts_all(open().open().unwrap().members());
    counts_all(open().open().unwrap().into_members());
    counts_all(typed().members());
    counts_all(typed().into_members());
}

/// The bounds that a member finds until nothing lives. None counts more items than the one before, or has a lesser key.
fn ask(member: &mut klsm::Member<'_>) {
    let mut last = Bound { queue: 0, work: 0, items: u64::MAX };
    while last.items > 0 {
        let bound = member.bound();
        assert!(bound.queue >= last.queue && bound.items <= last.items);
        last = bound;
    }
    assert_eq!(last.queue, NONE);
}

#[test]
fn bounds_only_rise_while_threads_delete() {
    let mut queue = Queue::new(4).unwrap();
    let mut members: Vec<_> = queue.members().collect();
    for key in 0..ITEMS {
        members[key as usize % 4].insert(key * 7_919 % ITEMS, key).unwrap();
    }
    let deleted = &AtomicU64::new(0);
    let (asking, deleting) = members.split_first_mut().unwrap();
    thread::scope(|scope| {
        for member in deleting {
            scope.spawn(move || {
                while deleted.load(SeqCst) < ITEMS {
                    deleted.fetch_add(u64::from(member.delete_min().is_some()), SeqCst);
                }
            });
        }
        ask(asking);
    });
}

const THREADS: usize = 16;
const ROUNDS: u64 = 1_000;

/// A thread's part of a search: a child of an item has its key or a greater one. No bound is below one that was found
/// before, and no deletion is below a bound that was found before it began.
fn search(member: &mut klsm::Member<'_>, greatest: &AtomicU64) {
    for round in 0..ROUNDS {
        let known = greatest.load(SeqCst);
        let deleted = member.delete_min();
        thread::yield_now(); // with an item in hand
        if let Some(item) = deleted {
            assert!(item.key >= known);
            for child in 0..[2, 1, 0, 1][round as usize % 4] {
                member.insert(item.key + (round + child) % 50, 0).unwrap();
            }
        }
        if round % 20 == 0 {
            let known = greatest.load(SeqCst);
            let bound = member.bound();
            let least = bound.queue.min(bound.work);
            assert!(least >= known);
            greatest.fetch_max(least, SeqCst);
        }
        if round % 64 == 0 {
            member.rest();
        }
    }
    member.rest();
}

#[test]
fn no_deletion_is_below_a_bound() {
    let mut queue = Queue::builder(THREADS).k(8).refill(4).open().unwrap();
    let mut members: Vec<_> = queue.members().collect();
    for root in 0..400 {
        let key = 1 + root * 7_919 % 1_009;
        members[root as usize % THREADS].insert(key, root).unwrap();
    }
    let greatest = &AtomicU64::new(0);
    thread::scope(|scope| {
        for member in &mut members {
            scope.spawn(move || search(member, greatest));
        }
    });
    let greatest = greatest.load(SeqCst);
    let bound = members[0].bound();
    assert_eq!(bound.work, NONE);
    assert!(greatest > 0 && bound.queue >= greatest);
    while let Some(item) = members[0].delete_min() {
        assert!(item.key >= greatest);
        assert_eq!(members[1].bound().work, item.key);
    }
    assert_eq!(members[1].bound(), Bound { queue: NONE, work: NONE, items: 0 });
}
