//! Members used by threads at once: the account is exact, and members may change threads.

use klsm::{Builder, FinishError, Member, Members, Pick, Queue};
use std::error::Error;
use std::sync::mpsc;
use std::thread;

/// All threads together make so many insertions.
const ALL: u64 = 80_000;

fn is_send<T: Send>() {}

fn is_shared<T: Send + Sync + 'static>() {}

#[test]
fn queues_and_members_may_be_sent() {
    is_send::<Queue>();
    is_send::<Member<'_>>();
    is_send::<Members<'_>>();
}

#[test]
fn queues_and_their_errors_may_be_shared() {
    is_shared::<Queue>();
    is_shared::<FinishError>();
}

/// As a program has it whose errors go from thread to thread.
fn deleted() -> Result<u64, Box<dyn Error + Send + Sync>> {
    let mut queue = Queue::builder(2).k(8).refill(0).open()?;
    let mut member = queue.members().next().ok_or("no member")?;
    member.insert(1, 10)?;
    member.try_insert(2, 20)?;
    member.try_delete_min()?;
    Ok(queue.finish()?.deleted)
}

#[test]
fn each_error_becomes_one_that_may_be_shared() {
    assert_eq!(deleted().unwrap(), 1);
}

#[test]
fn a_shared_queue_says_how_many_members_it_has() {
    let queue = Queue::builder(3).k(8).refill(0).open().unwrap();
    thread::scope(|scope| {
        for _ in 0..2 {
            scope.spawn(|| assert_eq!(queue.threads(), 3));
        }
    });
    assert_eq!(format!("{queue:?}"), "Queue { threads: 3, .. }");
}

/// A small generator, so that each thread has keys of its own.
fn next_of(state: &mut u64) -> u64 {
    *state = state
        .wrapping_mul(6_364_136_223_846_793_005)
        .wrapping_add(1_442_695_040_888_963_407);
    *state >> 40
}

/// Inserts so many loads of its own and deletes three of four, as far as it finds them. The loads that it got.
fn work(mut member: Member<'_>, insertions: u64) -> Vec<u64> {
    let mut state = u64::from(member.number()) + 1;
    let first = u64::from(member.number()) * insertions;
    let mut got = Vec::new();
    for i in 0..insertions {
        let key = next_of(&mut state);
        if i % 2 == 0 {
            member.insert(key, first + i).unwrap();
        } else {
            while member.try_insert(key, first + i).is_err() {
                thread::yield_now();
            }
        }
        match i % 4 {
            0 => {}
            1 => got.extend(member.try_delete_min().ok().flatten().map(|item| item.load)),
            _ => got.extend(member.delete_min().map(|item| item.load)),
        }
    }
    assert_eq!(member.inserted_count(), insertions);
    assert_eq!(member.deleted_count(), got.len() as u64);
    got
}

/// By four threads.
fn each_load_is_deleted_or_left_once(k: usize, pick: Pick, refill: usize) {
    let mut numbers = Queue::builder(4);
    all_are_deleted_or_left_once(numbers.k(k).pick(pick).seed(7).refill(refill));
}

fn all_are_deleted_or_left_once(numbers: &Builder) {
    let mut queue = numbers.open().unwrap();
    let threads = queue.threads() as u64;
    let insertions = ALL / threads;
    let mut loads: Vec<u64> = thread::scope(|scope| {
        let running: Vec<_> = queue
            .members()
            .map(|member| scope.spawn(move || work(member, insertions)))
            .collect();
        running
            .into_iter()
            .flat_map(|thread| thread.join().unwrap())
            .collect()
    });
    let (inserted, deleted) = (threads * insertions, loads.len() as u64);
    assert_eq!(queue.left(), inserted - deleted);
    let account = queue.finish().unwrap();
    assert_eq!((account.inserted, account.deleted), (inserted, deleted));
    assert!(account.left.windows(2).all(|two| two[0] < two[1]));
    loads.extend(account.left.iter().map(|item| item.load));
    loads.sort_unstable();
    assert!(loads.into_iter().eq(0..inserted));
}

#[test]
fn the_account_is_exact_with_the_first_picked() {
    each_load_is_deleted_or_left_once(64, Pick::First, 0);
}

#[test]
fn the_account_is_exact_with_the_last_picked() {
    each_load_is_deleted_or_left_once(4, Pick::Last, 0);
}

#[test]
fn the_account_is_exact_with_a_random_pick() {
    each_load_is_deleted_or_left_once(16, Pick::Random, 0);
}

#[test]
fn the_account_is_exact_without_own_items() {
    each_load_is_deleted_or_left_once(0, Pick::First, 0);
}

#[test]
fn the_account_is_exact_with_refills() {
    for refill in [1, 8, 16, 64] {
        each_load_is_deleted_or_left_once(64, Pick::First, refill);
    }
    each_load_is_deleted_or_left_once(8, Pick::Random, 8);
}

#[test]
fn the_account_is_exact_with_balances() {
    for k in [256, 1_024] {
        for balance in [0, 1, 16] {
            let mut numbers = Queue::builder(16);
            all_are_deleted_or_left_once(numbers.k(k).refill(64).balance(balance));
        }
    }
}

#[test]
fn the_account_is_exact_with_the_most_threads() {
    all_are_deleted_or_left_once(Queue::builder(64).k(256).balance(1));
}

#[test]
fn a_member_changes_threads_between_calls() {
    let mut queue = Queue::builder(2).k(8).refill(0).open().unwrap();
    thread::scope(|scope| {
        let (to, from) = mpsc::channel::<Member<'_>>();
        let mut members = queue.members();
        let mut one = members.next().unwrap();
        let mut other = members.next().unwrap();
        one.insert(1, 10).unwrap();
        scope.spawn(move || {
            for mut member in from {
                assert_eq!(member.inserted_count(), 1);
                member.insert(2, 20).unwrap();
                assert_eq!(member.delete_min().map(|item| item.load), Some(10));
            }
        });
        to.send(one).unwrap();
        drop(to);
        other.insert(3, 30).unwrap();
    });
    assert_eq!(queue.left(), 2);
}

#[test]
fn a_queue_changes_threads_with_its_items() {
    let mut queue = Queue::builder(1).k(8).refill(0).open().unwrap();
    queue.members().next().unwrap().insert(5, 50).unwrap();
    let account = thread::spawn(move || queue.finish().unwrap())
        .join()
        .unwrap();
    assert_eq!(account.left[0].load, 50);
}
