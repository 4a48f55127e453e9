//! This crate's own memory: where it is refused, what was given comes back; and all of it is given back.

mod blocks;

use blocks::{BLOCKS, MOST};
use klsm::{FinishError, InsertError, Queue, TryInsertError, TypedFinishError, TypedQueue};
use std::sync::Arc;

/// What a call answers where all memory is refused.
fn without_memory<T>(call: impl FnOnce() -> T) -> T {
    MOST.set(0);
    let answer = call();
    MOST.set(usize::MAX);
    answer
}

#[test]
fn a_refused_finish_gives_the_queue_back() {
    let mut queue = Queue::builder(2).k(4).refill(0).open().unwrap();
    for mut member in queue.members() {
        for key in 0..10_000 {
            member.insert(key, key).unwrap();
        }
    }
    let refused = without_memory(|| queue.finish());
    let mut queue = match refused {
        Err(FinishError::NoMemory(queue)) => queue,
        other => panic!("{other:?}"),
    };
    assert_eq!(queue.left(), 20_000);
    assert!(queue.members().next().unwrap().delete_min().is_some());
    let account = queue.finish().unwrap();
    assert_eq!((account.deleted, account.left.len()), (1, 19_999));
}

#[test]
fn a_refused_finish_gives_the_payloads_back() {
    let mut queue = klsm::Queue::builder(2).k(4).refill(0).open_typed().unwrap();
    for mut member in queue.members() {
        for key in 0..10_000 {
            member.insert(key, key.to_string()).unwrap();
        }
    }
    let Err(TypedFinishError(mut queue)) = without_memory(|| queue.finish()) else {
        panic!("it is not refused");
    };
    assert_eq!(queue.left(), 20_000);
    assert!(queue.members().next().unwrap().delete_min().is_some());
    let account = queue.finish().unwrap();
    assert_eq!((account.deleted, account.left.len()), (1, 19_999));
    let mut left = account.left.iter();
    assert!(left.all(|item| item.payload == item.key.to_string()));
}

#[test]
fn a_payload_for_which_memory_is_refused_comes_back() {
    let mut queue = klsm::Queue::builder(2).k(4).refill(0).open_typed().unwrap();
    let mut member = queue.members().next().unwrap();
    let payload = "payload".to_string();
    let refused = without_memory(|| member.insert(1, payload)).unwrap_err();
    assert_eq!(refused.why, InsertError::NoMemory);
    assert_eq!(refused.payload, "payload");
    let refused = without_memory(|| member.try_insert(1, refused.payload)).unwrap_err();
    assert_eq!(refused.why, TryInsertError::NoMemory);
    assert_eq!(refused.payload, "payload");
    assert_eq!(member.inserted_count(), 0);
    assert_eq!(member.insert(1, refused.payload), Ok(()));
    let item = without_memory(|| member.delete_min()).unwrap();
    assert_eq!(item.payload, "payload");
}

#[test]
fn a_payload_of_eight_bytes_takes_no_memory() {
    let mut queue = klsm::Queue::builder(1).k(4).refill(0).open_typed().unwrap();
    let mut member = queue.members().next().unwrap();
    without_memory(|| member.insert(1, [7u32, 8])).unwrap();
    assert_eq!(member.delete_min().map(|item| item.payload), Some([7, 8]));
}

#[test]
fn a_queue_of_payloads_is_dropped_without_memory() {
    let payload = Arc::new(7);
    let mut queue = klsm::Queue::builder(2).k(4).refill(0).open_typed().unwrap();
    for mut member in queue.members() {
        for key in 0..10_000 {
            member.insert(key, payload.clone()).unwrap();
        }
    }
    assert_eq!(Arc::strong_count(&payload), 20_001);
    without_memory(|| drop(queue));
    assert_eq!(Arc::strong_count(&payload), 1);
}

#[test]
fn each_payload_gives_its_block_back() {
    let ends: [fn(TypedQueue<[u64; 3]>); 3] = [
        drop,
        |queue| drop(queue.finish().unwrap()),
        |queue| drop(queue.into_members()),
    ];
    for end in ends {
        let before = BLOCKS.get();
        let mut queue = klsm::Queue::builder(1).k(4).refill(0).open_typed().unwrap();
        let mut member = queue.members().next().unwrap();
        let opened = BLOCKS.get();
        for key in 0..1_000 {
            member.insert(key, [key; 3]).unwrap();
        }
        assert_eq!(BLOCKS.get(), opened + 1_000);
        for key in 0..400 {
            assert_eq!(member.delete_min().unwrap().payload, [key; 3]);
        }
        assert_eq!(BLOCKS.get(), opened + 600);
        end(queue);
        assert_eq!(BLOCKS.get(), before);
    }
}
