//! Members that own their queue together.

use klsm::{Account, Member, OwnedMember, Queue};
use std::hint::spin_loop;
use std::sync::atomic::{AtomicUsize, Ordering::SeqCst};
use std::thread::{self, JoinHandle};

const THREADS: usize = 4;
const INSERTIONS: u64 = 10_000;

fn may_go_to_any_thread<T: Send + 'static>() {}

#[test]
fn an_owned_member_may_go_to_any_thread() {
    may_go_to_any_thread::<OwnedMember>();
}

/// Inserts loads of its own and deletes every other time. The loads that it got, and the queue, where the
/// member is the last one.
fn work(mut member: OwnedMember) -> (Vec<u64>, Option<Queue>) {
    let first = u64::from(member.number()) * INSERTIONS;
    let mut got = Vec::new();
    for i in 0..INSERTIONS {
        let key = (first + i).wrapping_mul(0x9e37_79b9_7f4a_7c15) >> 40;
        member.insert(key, first + i).unwrap();
        if i % 2 == 0 {
            got.extend(member.delete_min().map(|item| item.load));
        }
    }
    assert_eq!(member.inserted_count(), INSERTIONS);
    assert_eq!(member.deleted_count(), got.len() as u64);
    (got, member.into_queue())
}

fn joined<T>(threads: Vec<JoinHandle<T>>) -> Vec<T> {
    let join = |thread: JoinHandle<T>| thread.join().unwrap();
    threads.into_iter().map(join).collect()
}

/// The only queue among what the members gave.
fn only_one(given: impl IntoIterator<Item = Option<Queue>>) -> Queue {
    let mut queues = given.into_iter().flatten();
    let queue = queues.next().expect("there is a queue");
    assert!(queues.next().is_none());
    queue
}

#[test]
fn each_load_is_deleted_or_left_once() {
    let members = Queue::builder(THREADS).k(16).open().unwrap().into_members();
    let spawned = |member| thread::spawn(move || work(member));
    let (got, given): (Vec<_>, Vec<_>) = joined(members.into_iter().map(spawned).collect())
        .into_iter()
        .unzip();
    let account = only_one(given).finish().unwrap();
    let mut loads: Vec<u64> = got.into_iter().flatten().collect();
    assert_eq!(account.deleted, loads.len() as u64);
    loads.extend(account.left.iter().map(|item| item.load));
    loads.sort_unstable();
    assert!(loads.into_iter().eq(0..THREADS as u64 * INSERTIONS));
}

#[test]
fn the_last_one_that_is_given_back_gets_the_queue() {
    let mut members = Queue::builder(3).k(8).refill(0).open().unwrap().into_members();
    for member in &mut members {
        let number = u64::from(member.number());
        member.insert(9 - number, number).unwrap();
    }
    let last = members.remove(1);
    for member in members {
        assert!(member.into_queue().is_none());
    }
    let account = last.into_queue().unwrap().finish().unwrap();
    let loads: Vec<u64> = account.left.iter().map(|item| item.load).collect();
    assert_eq!(loads, [2, 1, 0]);
}

/// Gives a member back as nearly at once as may be with the others, of which so many are ready.
fn given_back(member: OwnedMember, ready: &AtomicUsize) -> Option<Queue> {
    ready.fetch_add(1, SeqCst);
    for _ in 0..10_000 {
        if ready.load(SeqCst) == THREADS {
            break;
        }
        spin_loop();
    }
    member.into_queue()
}

#[test]
fn one_gets_the_queue_where_all_are_given_back_at_once() {
    for _ in 0..300 {
        let ready = AtomicUsize::new(0);
        let members = Queue::builder(THREADS).k(8).refill(0).open().unwrap().into_members();
        let queue = thread::scope(|scope| {
            let give = |member| scope.spawn(|| given_back(member, &ready));
            let running: Vec<_> = members.into_iter().map(give).collect();
            only_one(running.into_iter().map(|thread| thread.join().unwrap()))
        });
        assert_eq!(queue.finish().unwrap(), Account::default());
    }
}

#[test]
fn a_queue_that_is_given_back_goes_on() {
    let mut queue = Queue::builder(2).k(8).refill(0).open().unwrap();
    queue.members().next().unwrap().insert(1, 10).unwrap();
    for round in 0..3 {
        let mut members = queue.into_members();
        assert_eq!(members[0].inserted_count(), 1 + round);
        members[0].insert(2 + round, 20).unwrap();
        queue = only_one(members.into_iter().map(OwnedMember::into_queue));
    }
    assert_eq!((queue.threads(), queue.left()), (2, 4));
}

/// Each keeps the way to its own slot, in its own queue.
#[test]
fn members_of_two_queues_may_change_places() {
    let mut members = Queue::builder(2).k(8).refill(0).open().unwrap().into_members();
    let mut others = Queue::builder(2).k(8).refill(0).open().unwrap().into_members();
    std::mem::swap(&mut members[0], &mut others[1]);
    members[0].insert(1, 10).unwrap();
    others[1].insert(2, 20).unwrap();
    drop(members.remove(1));
    assert_eq!(others[1].delete_min().map(|item| item.load), Some(20));
    drop(others);
    assert_eq!(members[0].number(), 1);
    assert_eq!(members[0].delete_min().map(|item| item.load), Some(10));
}

#[test]
fn a_member_outlives_the_others() {
    let mut members = Queue::builder(16).k(8).refill(0).open().unwrap().into_members();
    for member in &mut members {
        for key in 0..100 {
            member.insert(key, key).unwrap();
        }
    }
    let mut last = members.pop().unwrap();
    drop(members);
    let mut deleted = 0;
    while last.try_delete_min().unwrap().is_some() {
        deleted += 1;
    }
    assert_eq!(deleted, 1_600);
}

#[test]
fn a_member_that_panics_leaves_its_items_to_the_others() {
    let mut members = Queue::builder(2).k(8).refill(0).open().unwrap().into_members();
    let mut lost = members.pop().unwrap();
    let panicked = thread::spawn(move || {
        lost.insert(1, 10).unwrap();
        panic!("as the test wants");
    });
    assert!(panicked.join().is_err());
    let mut queue = members.pop().unwrap().into_queue().unwrap();
    assert_eq!(queue.left(), 1);
}

#[test]
fn an_owned_member_is_lent_as_one_that_borrows() {
    let insert = |mut member: Member<'_>| member.insert(7, 70).unwrap();
    let mut members = Queue::builder(2).k(8).refill(0).open().unwrap().into_members();
    insert(members[1].lend());
    assert_eq!(members[1].lend().number(), 1);
    assert_eq!(members[1].inserted_count(), 1);
    assert_eq!(members[1].try_insert(8, 80), Ok(()));
    assert_eq!(members[1].delete_min().map(|item| item.load), Some(70));
    let text = "OwnedMember { number: 1, inserted: 2, deleted: 1 }";
    assert_eq!(format!("{:?}", members[1]), text);
}
