//! Queues of payloads: each payload comes out as it went in, and is dropped once.

use klsm::{Pick, TypedFinishError, TypedItem, TypedMember, TypedQueue};
use std::cell::Cell;
use std::fmt::Debug;
use std::panic::{catch_unwind, AssertUnwindSafe};
use std::sync::atomic::{AtomicUsize, Ordering::Relaxed};
use std::sync::Arc;
use std::thread;

/// How often each payload was dropped.
#[derive(Clone)]
struct Drops(Arc<[AtomicUsize]>);

impl Drops {
    fn of(payloads: usize) -> Drops {
        Drops((0..payloads).map(|_| AtomicUsize::new(0)).collect())
    }

    fn payload(&self, number: usize) -> Payload {
        let drops = self.clone();
        Payload { number, drops }
    }

    /// The numbers of those that were dropped, each as often as it was.
    fn seen(&self) -> Vec<usize> {
        let times = |number: usize| self.0[number].load(Relaxed);
        let all = 0..self.0.len();
        all.flat_map(|number| vec![number; times(number)]).collect()
    }

    fn assert_each_once(&self) {
        assert!(self.seen().into_iter().eq(0..self.0.len()));
    }
}

struct Payload {
    number: usize,
    drops: Drops,
}

impl Drop for Payload {
    fn drop(&mut self) {
        self.drops.0[self.number].fetch_add(1, Relaxed);
    }
}

const PAYLOADS: usize = 600;

/// A key for a payload; some are the same.
fn key_of(number: usize) -> u64 {
    number as u64 * 7_919 % 401
}

/// A queue that got the payloads, by each member in turn.
fn filled(threads: usize, k: usize, pick: Pick, drops: &Drops) -> TypedQueue<Payload> {
    let mut numbers = klsm::Queue::builder(threads);
    let mut queue = numbers.k(k).pick(pick).seed(5).open_typed().unwrap();
    let mut members: Vec<_> = queue.members().collect();
    for number in 0..PAYLOADS {
        let inserted = members[number % threads].insert(key_of(number), drops.payload(number));
        assert!(inserted.is_ok());
    }
    queue
}

/// Tries queues of several numbers of threads, with refills and without.
fn with_each_queue(test: impl Fn(TypedQueue<Payload>, &Drops)) {
    for pick in [Pick::First, Pick::Last, Pick::Random] {
        for (threads, k) in [(1, 0), (1, 64), (2, 1), (3, 16), (4, 64), (16, 8)] {
            let drops = Drops::of(PAYLOADS);
            test(filled(threads, k, pick, &drops), &drops);
            drops.assert_each_once();
        }
    }
}

/// Deletes so many items by each member in turn.
fn delete(queue: &mut TypedQueue<Payload>, count: usize) -> Vec<TypedItem<Payload>> {
    let mut members: Vec<_> = queue.members().collect();
    let threads = members.len();
    let deleted = (0..count).filter_map(|i| members[i % threads].delete_min());
    deleted.collect()
}

#[test]
fn what_is_deleted_is_the_callers() {
    with_each_queue(|mut queue, drops| {
        let items = delete(&mut queue, PAYLOADS / 3);
        assert_eq!(items.len(), PAYLOADS / 3);
        assert!(drops.seen().is_empty());
        for item in &items {
            assert_eq!(item.key, key_of(item.payload.number));
            assert_eq!(item.owner as usize, item.payload.number % queue.threads());
            assert_eq!(item.number as usize, item.payload.number / queue.threads());
        }
        drop(items);
        assert_eq!(drops.seen().len(), PAYLOADS / 3);
    });
}

#[test]
fn what_is_left_is_dropped_with_the_queue() {
    with_each_queue(|queue, drops| {
        assert!(drops.seen().is_empty());
        drop(queue);
        drops.assert_each_once();
    });
}

#[test]
fn what_is_left_is_given_in_ascending_order() {
    with_each_queue(|mut queue, drops| {
        drop(delete(&mut queue, 100));
        let account = queue.finish().unwrap();
        assert_eq!((account.inserted, account.deleted), (PAYLOADS as u64, 100));
        assert_eq!(account.left.len(), PAYLOADS - 100);
        let stamp = |item: &TypedItem<Payload>| (item.key, item.owner, item.number);
        assert!(account
            .left
            .windows(2)
            .all(|two| stamp(&two[0]) < stamp(&two[1])));
        assert!(account
            .left
            .iter()
            .all(|item| item.key == key_of(item.payload.number)));
        assert_eq!(drops.seen().len(), 100);
    });
}

#[test]
fn an_emptied_queue_has_nothing_left() {
    let drops = Drops::of(PAYLOADS);
    let mut queue = filled(1, 64, Pick::First, &drops);
    drop(delete(&mut queue, PAYLOADS + 1));
    drops.assert_each_once();
    assert_eq!(queue.left(), 0);
    assert!(queue.finish().unwrap().left.is_empty());
}

/// Inserts payloads of its own, and drops those of any that it deletes.
fn work(mut member: TypedMember<'_, Payload>, each: usize, drops: &Drops) {
    let first = member.number() as usize * each;
    for i in 0..each {
        let payload = drops.payload(first + i);
        match i % 2 {
            0 => assert!(member.insert(key_of(i), payload).is_ok()),
            _ => {
                let refused = member.try_insert(key_of(i), payload).err();
                let again = refused.map(|refused| member.insert(key_of(i), refused.payload));
                assert!(!matches!(again, Some(Err(_))));
            }
        }
        match i % 3 {
            0 => drop(member.delete_min()),
            1 => drop(member.try_delete_min()),
            _ => {}
        }
    }
}

fn by_threads(k: usize, refill: usize) -> (TypedQueue<Payload>, Drops) {
    let (threads, each) = (4, 5_000);
    let drops = Drops::of(threads * each);
    let mut numbers = klsm::Queue::builder(threads);
    let mut queue = numbers.k(k).refill(refill).open_typed().unwrap();
    thread::scope(|scope| {
        for member in queue.members() {
            scope.spawn(|| work(member, each, &drops));
        }
    });
    assert_eq!(drops.0.len() - drops.seen().len(), queue.left() as usize);
    (queue, drops)
}

#[test]
fn threads_drop_each_payload_once() {
    for (k, refill) in [(0, 0), (4, 0), (64, 0), (64, 16)] {
        let (queue, drops) = by_threads(k, refill);
        drop(queue);
        drops.assert_each_once();
        let (queue, drops) = by_threads(k, refill);
        drop(queue.finish().unwrap());
        drops.assert_each_once();
    }
}

#[test]
fn what_a_thread_that_panics_inserted_is_dropped_once() {
    let drops = Drops::of(200);
    let mut queue = klsm::Queue::builder(2).k(64).refill(0).open_typed().unwrap();
    let panicked = catch_unwind(AssertUnwindSafe(|| {
        thread::scope(|scope| {
            for mut member in queue.members() {
                let drops = &drops;
                scope.spawn(move || {
                    let first = 100 * member.number() as usize;
                    for i in first..first + 100 {
                        assert!(member.insert(0, drops.payload(i)).is_ok());
                    }
                    let _deleted = member.delete_min();
                    panic!("as the test wants");
                });
            }
        });
    }));
    assert!(panicked.is_err());
    assert_eq!((drops.seen().len(), queue.left()), (2, 198));
    drop(queue);
    drops.assert_each_once();
}

/// A payload whose drop panics where its number is 5.
struct Panics(Payload);

impl Drop for Panics {
    fn drop(&mut self) {
        assert_ne!(self.0.number, 5, "as the test wants");
    }
}

#[test]
fn a_drop_that_panics_keeps_no_other() {
    let drops = Drops::of(100);
    let mut queue = klsm::Queue::builder(2).k(4).refill(0).open_typed().unwrap();
    for (number, mut member) in queue.members().enumerate() {
        for i in 50 * number..50 * (number + 1) {
            assert!(member.insert(i as u64, Panics(drops.payload(i))).is_ok());
        }
    }
    assert!(catch_unwind(AssertUnwindSafe(|| drop(queue))).is_err());
    drops.assert_each_once();
}

#[test]
fn members_that_own_a_queue_drop_its_payloads_with_it() {
    with_each_queue(|queue, drops| {
        let mut members = queue.into_members();
        let mut last = members.pop().unwrap();
        drop(members);
        assert!(drops.seen().is_empty());
        assert!(last.delete_min().is_some());
        assert!(last.try_delete_min().unwrap().is_some());
        assert_eq!(drops.seen().len(), 2);
        assert_eq!(last.deleted_count(), 2);
    });
}

#[test]
fn members_that_own_a_queue_give_it_back() {
    with_each_queue(|queue, drops| {
        let threads = queue.threads();
        let members = queue.into_members().into_iter();
        let running = members.map(|mut member| {
            thread::spawn(move || {
                let item = member.lend().delete_min().unwrap();
                let inserted = member.try_insert(item.key, item.payload);
                let refused = inserted.err().map(|refused| refused.payload);
                let again = refused.map(|payload| member.insert(item.key, payload));
                assert!(!matches!(again, Some(Err(_))));
                member.into_queue()
            })
        });
        let running: Vec<_> = running.collect();
        let given = running.into_iter().map(|thread| thread.join().unwrap());
        let queues: Vec<_> = given.flatten().collect();
        assert_eq!((queues.len(), queues[0].threads()), (1, threads));
        assert!(drops.seen().is_empty());
    });
}

/// Payloads come back as they went in: deleted, and left at the end.
fn come_back<T: Send + Clone + PartialEq + Debug>(payloads: &[T]) {
    let mut queue = klsm::Queue::builder(1).k(4).refill(0).open_typed().unwrap();
    let mut member = queue.members().next().unwrap();
    for (key, payload) in (0..).zip(payloads) {
        member.insert(key, payload.clone()).unwrap();
        member.insert(1_000 + key, payload.clone()).unwrap();
    }
    for (key, payload) in (0..).zip(payloads) {
        let item = member.delete_min().unwrap();
        assert_eq!((item.key, &item.payload), (key, payload));
    }
    let left = queue.finish().unwrap().left;
    assert!(left.iter().map(|item| &item.payload).eq(payloads));
}

#[derive(Clone, Debug, PartialEq)]
#[repr(align(256))]
struct Aligned(u8);

#[test]
fn payloads_of_each_size_come_back() {
    come_back(&[(); 20]);
    come_back(&[[0u64; 0]; 20]);
    come_back(&(0..20u8).collect::<Vec<_>>());
    come_back(&[None, Some(7u32), None, Some(u32::MAX)]);
    come_back(&[(1u8, 2u32), (3, 4), (u8::MAX, u32::MAX)]);
    come_back(&[1.5, f64::INFINITY, -0.0]);
    come_back(&["one", "two", ""]);
    come_back(&["one".to_string(), String::new()]);
    come_back(&[Box::new(1), Box::new(2)]);
    come_back(&[vec![1, 2], Vec::new()]);
    come_back(&[[7u8; 1_000], [8; 1_000]]);
    come_back(&[Aligned(1), Aligned(2)]);
}

#[test]
fn a_payload_may_borrow() {
    let words = ["one".to_string(), "two".to_string()];
    let mut queue = klsm::Queue::builder(2).k(4).refill(0).open_typed::<&str>().unwrap();
    for (word, mut member) in words.iter().zip(queue.members()) {
        member.insert(1, word).unwrap();
    }
    let left = queue.finish().unwrap().left;
    assert!(left.iter().map(|item| item.payload).eq(["one", "two"]));
}

fn is_send<T: Send>() {}

fn is_shared<T: Send + Sync + 'static>() {}

/// Also where a payload may be sent but not shared.
#[test]
fn what_may_be_sent_and_shared() {
    is_shared::<TypedQueue<Cell<u32>>>();
    is_shared::<TypedFinishError<Cell<u32>>>();
    is_send::<TypedMember<'_, Cell<u32>>>();
    is_send::<klsm::TypedMembers<'_, Cell<u32>>>();
    is_send::<klsm::OwnedTypedMember<Cell<u32>>>();
}

#[test]
fn texts_name_no_payload() {
    let mut queue = klsm::Queue::builder(2).k(4).refill(0).open_typed::<Cell<u32>>().unwrap();
    assert_eq!(format!("{queue:?}"), "TypedQueue { threads: 2, .. }");
    let mut members = queue.members();
    let text = "TypedMembers(Members { remaining: 2 })";
    assert_eq!(format!("{members:?}"), text);
    let counts = "{ number: 1, inserted: 0, deleted: 0 }";
    let member = members.next_back().unwrap();
    assert_eq!(
        format!("{member:?}"),
        format!("TypedMember(Member {counts})")
    );
    let member = queue.into_members().remove(1);
    assert_eq!(format!("{member:?}"), format!("OwnedTypedMember {counts}"));
}
