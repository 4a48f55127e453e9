//! Members that own their queue together: their slots, their calls, and when the queue is dropped.

use crate::stub::{self, Call};
use klsm::{FinishError, OwnedMember, Queue};

const SLOT: u64 = 128;

/// How many queues are open, and how many were dropped.
fn open_and_dropped() -> (u64, u64) {
    (stub::queues(), stub::asked(Call::Drop))
}

#[test]
fn each_owned_member_has_its_own_slot() {
    for threads in [1, 3, 16] {
        stub::begin();
        let members = Queue::new(threads).unwrap().into_members();
        assert_eq!(members.len(), threads);
        let first = stub::argument(Call::OpenWithBalance, 0);
        for (number, mut member) in (0..).zip(members) {
            assert_eq!(u64::from(member.number()), number);
            member.insert(1, 2).unwrap();
            assert_eq!(stub::argument(Call::TryInsert, 0), first + number * SLOT);
            assert_eq!(member.lend().number(), member.number());
        }
        assert_eq!(open_and_dropped(), (0, 1));
    }
}

/// A member of number 2.
fn member() -> OwnedMember {
    Queue::new(3).unwrap().into_members().remove(2)
}

/// A call was made so often, each time with the slot of member 2.
fn assert_asked(call: Call, times: u64) {
    assert_eq!(stub::asked(call), times);
    assert!(stub::repeats(call));
    let queue = stub::argument(Call::OpenWithBalance, 0);
    assert_eq!(stub::argument(call, 0), queue + 2 * SLOT);
}

#[test]
fn what_waits_waits() {
    for held in [0, 1, 45] {
        stub::answer_code(Call::TryInsert, held, stub::code("FULL"));
        assert_eq!(stub::said(|| member().insert(5, 6)), "Err(Full)");
        assert_asked(Call::TryInsert, held + 1);
        let arguments = [1, 2].map(|place| stub::argument(Call::TryInsert, place));
        assert_eq!(arguments, [5, 6]);
        stub::answer_code(Call::TryDeleteMin, held, stub::code("OK"));
        let item = member().delete_min().unwrap();
        assert_eq!((item.key, item.load), (101, 102));
        assert_asked(Call::TryDeleteMin, held + 1);
        stub::answer_code(Call::TryDeleteMinAlone, held, stub::code("OK"));
        let item = member().delete_min_alone().unwrap();
        assert_eq!((item.key, item.load), (101, 102));
        assert_asked(Call::TryDeleteMinAlone, held + 1);
        stub::answer_code(Call::TryShare, held, stub::code("NO_MEMORY"));
        assert_eq!(stub::said(|| member().share()), "Err(NoMemory)");
        assert_asked(Call::TryShare, held + 1);
        stub::answer_code(Call::TryBound, held, stub::code("OK"));
        let bound = member().bound();
        assert_eq!((bound.queue, bound.work, bound.items), (106, 107, 108));
        assert_asked(Call::TryBound, held + 1);
        stub::answer_code(Call::TryRest, held, stub::code("OK"));
        member().rest();
        assert_asked(Call::TryRest, held + 1);
    }
}

#[test]
fn what_does_not_wait_asks_once() {
    let busy = "Err(Busy)";
    let bounded = "Ok(Bound { queue: 106, work: 107, items: 108 })";
    for (held, done, deleted, shared, bound) in [
        (0, "Ok(())", "Ok(None)", "Ok(105)", bounded),
        (1, busy, busy, busy, busy),
    ] {
        stub::answer_code(Call::TryInsert, held, stub::code("OK"));
        assert_eq!(stub::said(|| member().try_insert(5, 6)), done);
        assert_asked(Call::TryInsert, 1);
        stub::answer_code(Call::TryDeleteMin, held, stub::code("NOTHING"));
        assert_eq!(stub::said(|| member().try_delete_min()), deleted);
        assert_asked(Call::TryDeleteMin, 1);
        stub::answer_code(Call::TryDeleteMinAlone, held, stub::code("NOTHING"));
        assert_eq!(stub::said(|| member().try_delete_min_alone()), deleted);
        assert_asked(Call::TryDeleteMinAlone, 1);
        stub::answer_code(Call::TryShare, held, stub::code("OK"));
        assert_eq!(stub::said(|| member().try_share()), shared);
        assert_asked(Call::TryShare, 1);
        stub::answer_code(Call::TryBound, held, stub::code("OK"));
        assert_eq!(stub::said(|| member().try_bound()), bound);
        assert_asked(Call::TryBound, 1);
        stub::answer_code(Call::TryRest, held, stub::code("OK"));
        assert_eq!(stub::said(|| member().try_rest()), done);
        assert_asked(Call::TryRest, 1);
    }
}

#[test]
fn counts_are_those_of_the_library() {
    stub::begin();
    stub::answer(Call::Inserted, 9);
    stub::answer(Call::Deleted, 4);
    assert_eq!(member().inserted_count(), 9);
    assert_asked(Call::Inserted, 1);
    assert_eq!(member().deleted_count(), 4);
    assert_asked(Call::Deleted, 1);
}

#[test]
fn the_last_member_that_is_dropped_drops_the_queue() {
    stub::begin();
    let mut members = Queue::new(3).unwrap().into_members();
    for place in [1, 1] {
        drop(members.remove(place));
        assert_eq!(open_and_dropped(), (1, 0));
    }
    drop(members);
    assert_eq!(open_and_dropped(), (0, 1));
}

#[test]
fn the_last_member_that_is_given_back_gets_the_queue() {
    stub::begin();
    let mut members = Queue::new(3).unwrap().into_members();
    assert!(members.remove(1).into_queue().is_none());
    drop(members.remove(1));
    let queue = members.remove(0).into_queue().unwrap();
    assert_eq!(queue.threads(), 3);
    assert_eq!(open_and_dropped(), (1, 0));
    drop(queue);
    assert_eq!(open_and_dropped(), (0, 1));
}

#[test]
fn want_of_memory_gives_the_queue_back_to_the_last_member() {
    stub::begin();
    stub::answer(Call::Close, stub::code("NO_MEMORY") as u64);
    let queue = Queue::new(1).unwrap();
    let refused = queue
        .into_members()
        .remove(0)
        .into_queue()
        .unwrap()
        .finish();
    let Err(FinishError::NoMemory(queue)) = refused else {
        panic!("no queue came back");
    };
    assert_eq!(open_and_dropped(), (1, 0));
    stub::answer(Call::Close, stub::code("OK") as u64);
    let again = queue.into_members().remove(0).into_queue().unwrap();
    assert!(again.finish().is_ok());
    assert_eq!(stub::queues(), 0);
}
