//! Payloads: what arrives, what a refusal gives back, and what is dropped.

use crate::blocks::BLOCKS;
use crate::stub::{self, Call};
use klsm::{Bound, Busy, Pick, Refused, ShareError, TryShareError, TypedItem, TypedQueue};
use std::cell::Cell;

thread_local! {
    static DROPS: Cell<u64> = const { Cell::new(0) };
}

/// Counts its drops. It has no bytes, so it may be where the load of the stub's item leads to.
struct Counted;

impl Drop for Counted {
    fn drop(&mut self) {
        DROPS.set(DROPS.get() + 1);
    }
}

/// What a call by member 2 says.
fn said(call: impl FnOnce(&mut klsm::TypedMember<'_, String>) -> String) -> String {
    let mut queue = TypedQueue::new(3).unwrap();
    let mut member = queue.members().nth(2).unwrap();
    assert_eq!(member.number(), 2);
    stub::said(|| call(&mut member))
}

/// What is said of an insertion: why it was refused, and the payload that came back.
fn of_insertion<Why: std::fmt::Debug>(answer: Result<(), Refused<String, Why>>) -> String {
    match answer {
        Ok(()) => "Ok".to_string(),
        Err(refused) => format!("{:?}, {}", refused.why, refused.payload),
    }
}

/// What is to be said of an insertion, as text that is written as text.
fn expected(name: &str, code: i32) -> String {
    let said = match name {
        "SPENT" => "Spent, payload",
        "BUSY" => "Busy, payload",
        "FULL" => "Full, payload",
        "NO_MEMORY" => "NoMemory, payload",
        _ => return stub::never("klsm_try_insert", code),
    };
    format!("{said:?}")
}

fn payload() -> String {
    "payload".to_string()
}

/// An insertion was made so often, each time by member 2 with the same key and load.
fn assert_asked(times: u64) {
    assert_eq!(stub::asked(Call::TryInsert), times);
    assert!(stub::repeats(Call::TryInsert));
    let queue = stub::argument(Call::OpenWithBalance, 0);
    assert_eq!(stub::argument(Call::TryInsert, 0), queue + 2 * 128);
    assert_eq!(stub::argument(Call::TryInsert, 1), 5);
}

#[test]
fn a_refusal_gives_the_payload_back() {
    for (name, code) in stub::codes().into_iter().filter(|(name, _)| *name != "OK") {
        stub::answer_code(Call::TryInsert, 0, code);
        let answer = said(|member| of_insertion(member.try_insert(5, payload())));
        assert_eq!(answer, expected(name, code));
        assert_asked(1);
        for held in [0, 1, 45] {
            stub::answer_code(Call::TryInsert, held, code);
            if name != "BUSY" {
                let answer = said(|member| of_insertion(member.insert(5, payload())));
                assert_eq!(answer, expected(name, code));
                assert_asked(held + 1);
            }
        }
    }
}

#[test]
fn a_held_lock_gives_the_payload_back() {
    stub::answer_code(Call::TryInsert, 1, stub::code("OK"));
    let answer = said(|member| of_insertion(member.try_insert(5, payload())));
    assert_eq!(answer, expected("BUSY", 0));
    assert_asked(1);
}

#[test]
fn a_refused_payload_is_dropped_once() {
    DROPS.set(0);
    stub::answer_code(Call::TryInsert, 0, stub::code("FULL"));
    let mut queue = TypedQueue::new(1).unwrap();
    let mut member = queue.members().next().unwrap();
    let refused = member.insert(1, Counted).unwrap_err();
    assert_eq!(DROPS.get(), 0);
    drop(refused);
    assert_eq!(DROPS.get(), 1);
    drop(member.try_insert(1, Counted));
    drop(queue);
    assert_eq!(DROPS.get(), 2);
}

#[test]
fn a_refused_payload_gives_its_block_back() {
    stub::answer_code(Call::TryInsert, 0, stub::code("FULL"));
    let mut queue = TypedQueue::new(1).unwrap();
    let mut member = queue.members().next().unwrap();
    let before = BLOCKS.get();
    let refused = member.insert(1, payload()).unwrap_err();
    assert_eq!(BLOCKS.get(), before + 1);
    drop(refused);
    drop(member.try_insert(1, payload()));
    assert_eq!(BLOCKS.get(), before);
}

/// The load that arrives is the address of the payload, which the queue then has.
#[test]
fn a_payload_arrives() {
    stub::begin();
    let mut queue = TypedQueue::new(1).unwrap();
    queue
        .members()
        .next()
        .unwrap()
        .insert(1, payload())
        .unwrap();
    let load = stub::argument(Call::TryInsert, 2) as usize;
    drop(queue);
    // SAFETY: it is the address of the box that was inserted, and the stub forgets it.
    let arrived = unsafe { Box::from_raw(load as *mut String) };
    assert_eq!(*arrived, "payload");
}

/// What a payload of eight bytes at most is as a load.
fn load_of<T: Send>(payload: T) -> u64 {
    stub::begin();
    stub::answer(Call::TryDeleteMin, stub::code("NOTHING") as u64);
    let mut queue = TypedQueue::new(1).unwrap();
    let before = BLOCKS.get();
    let inserted = queue.members().next().unwrap().insert(1, payload);
    assert!(inserted.is_ok());
    assert_eq!(BLOCKS.get(), before);
    stub::argument(Call::TryInsert, 2)
}

#[test]
fn a_payload_of_eight_bytes_is_the_load() {
    assert_eq!(load_of(7u8), 7);
    assert_eq!(load_of(u64::MAX - 1), u64::MAX - 1);
    assert_eq!(load_of(-2.5), f64::to_bits(-2.5));
    assert_eq!(load_of([1u16, 2, 3, 4]), 0x0004_0003_0002_0001);
    let number = 7;
    assert_eq!(load_of(&number), std::ptr::from_ref(&number) as u64);
    assert_eq!(load_of(()), 0);
}

#[test]
fn a_payload_of_eight_bytes_comes_back() {
    stub::answer_code(Call::TryDeleteMin, 0, stub::code("OK"));
    let mut queue = TypedQueue::<u32>::new(1).unwrap();
    let mut member = queue.members().next().unwrap();
    assert_eq!(member.delete_min().map(|item| item.payload), Some(102));
    stub::answer_code(Call::TryInsert, 0, stub::code("FULL"));
    assert_eq!(member.insert(1, 77).map_err(|refused| refused.payload), Err(77));
    DROPS.set(0);
    let mut queue = TypedQueue::new(1).unwrap();
    let mut member = queue.members().next().unwrap();
    let refused = member.insert(1, (7u32, Counted)).unwrap_err();
    assert_eq!((refused.payload.0, DROPS.get()), (7, 0));
    drop(refused);
    assert_eq!(DROPS.get(), 1);
}

#[test]
fn items_with_payloads_are_ordered_as_items_are() {
    let item = |key, owner, number, payload| TypedItem {
        key,
        payload,
        number,
        owner,
    };
    let ascending = [
        item(1, 9, 9, "z"),
        item(2, 0, 5, "y"),
        item(2, 1, 0, "x"),
        item(2, 1, 3, "a"),
        item(2, 1, 3, "b"),
    ];
    assert!(ascending.windows(2).all(|pair| pair[0] < pair[1]));
    let mut other = ascending;
    other.reverse();
    other.sort();
    assert_eq!(other, ascending);
}

#[test]
fn an_item_comes_with_its_payload() {
    stub::answer_code(Call::TryDeleteMin, 1, stub::code("OK"));
    let mut queue = TypedQueue::<()>::new(3).unwrap();
    let mut member = queue.members().nth(1).unwrap();
    assert_eq!(format!("{:?}", member.try_delete_min()), "Err(Busy)");
    let item = TypedItem {
        key: 101,
        payload: (),
        number: 103,
        owner: 104,
    };
    assert_eq!(member.try_delete_min(), Ok(Some(item)));
    stub::answer_code(Call::TryDeleteMin, 45, stub::code("OK"));
    assert_eq!(member.delete_min(), Some(item));
    assert_eq!(stub::asked(Call::TryDeleteMin), 46);
    stub::answer_code(Call::TryDeleteMinAlone, 1, stub::code("OK"));
    assert_eq!(format!("{:?}", member.try_delete_min_alone()), "Err(Busy)");
    assert_eq!(member.try_delete_min_alone(), Ok(Some(item)));
    stub::answer_code(Call::TryDeleteMinAlone, 45, stub::code("OK"));
    assert_eq!(member.delete_min_alone(), Some(item));
    let asked = [Call::TryDeleteMinAlone, Call::TryDeleteMin].map(stub::asked);
    assert_eq!(asked, [46, 0]);
    stub::answer(Call::TryDeleteMinAlone, stub::code("NOTHING") as u64);
    assert_eq!(member.delete_min_alone(), None);
    assert_eq!(member.try_delete_min_alone(), Ok(None));
    stub::answer(Call::TryDeleteMin, stub::code("NOTHING") as u64);
    assert_eq!(member.delete_min(), None);
    assert_eq!(member.try_delete_min(), Ok(None));
}

#[test]
fn an_owned_member_deletes_alone_and_shares() {
    let ok = stub::code("OK");
    stub::begin();
    let mut members = TypedQueue::<()>::new(3).unwrap().into_members();
    let member = &mut members[1];
    stub::answer_code(Call::TryDeleteMinAlone, 1, ok);
    assert!(member.try_delete_min_alone().is_err());
    assert_eq!(member.delete_min_alone().map(|item| item.key), Some(101));
    stub::answer_code(Call::TryDeleteMinAlone, 1, ok);
    assert_eq!(member.delete_min_alone().map(|item| item.key), Some(101));
    assert_eq!(stub::asked(Call::TryDeleteMinAlone), 2);
    stub::answer_code(Call::TryShare, 1, ok);
    assert_eq!(member.try_share(), Err(TryShareError::Busy));
    assert_eq!(member.try_share(), Ok(105));
    stub::answer_code(Call::TryShare, 1, ok);
    assert_eq!(member.share(), Ok(105));
    assert_eq!(stub::asked(Call::TryShare), 2);
    let found = Bound { queue: 106, work: 107, items: 108 };
    stub::answer_code(Call::TryBound, 1, ok);
    assert_eq!(member.try_bound(), Err(Busy));
    assert_eq!(member.try_bound(), Ok(found));
    stub::answer_code(Call::TryBound, 1, ok);
    assert_eq!(member.bound(), found);
    assert_eq!(stub::asked(Call::TryBound), 2);
    stub::answer_code(Call::TryRest, 1, ok);
    assert_eq!(member.try_rest(), Err(Busy));
    assert_eq!(member.try_rest(), Ok(()));
    stub::answer_code(Call::TryRest, 1, ok);
    member.rest();
    assert_eq!(stub::asked(Call::TryRest), 2);
}

#[test]
fn a_sharing_is_that_of_the_member() {
    stub::begin();
    let mut queue = TypedQueue::<String>::new(3).unwrap();
    let slot = stub::argument(Call::OpenWithBalance, 0) + 128;
    let mut member = queue.members().nth(1).unwrap();
    for held in [0, 1, 45] {
        stub::answer_code(Call::TryShare, held, stub::code("OK"));
        assert_eq!(member.share(), Ok(105));
        assert_eq!(stub::asked(Call::TryShare), held + 1);
        assert_eq!(stub::argument(Call::TryShare, 0), slot);
        stub::answer_code(Call::TryShare, held, stub::code("FULL"));
        assert_eq!(member.share(), Err(ShareError::Full));
        stub::answer_code(Call::TryShare, held, stub::code("NO_MEMORY"));
        let tried = if held == 0 { TryShareError::NoMemory } else { TryShareError::Busy };
        assert_eq!(member.try_share(), Err(tried));
        assert_eq!(stub::asked(Call::TryShare), 1);
    }
}

#[test]
fn counts_are_those_of_the_library() {
    stub::begin();
    stub::answer(Call::Inserted, 9);
    stub::answer(Call::Deleted, 4);
    stub::answer(Call::TryDeleteMin, stub::code("NOTHING") as u64);
    let mut queue = TypedQueue::<()>::new(3).unwrap();
    assert_eq!((queue.threads(), queue.left()), (3, 15));
    let member = queue.members().nth(1).unwrap();
    assert_eq!((member.inserted_count(), member.deleted_count()), (9, 4));
    let member = queue.into_members().remove(1);
    assert_eq!((member.inserted_count(), member.deleted_count()), (9, 4));
}

/// A queue of three members, of which the stub says that each has five items.
fn queue_of_15(deletion: &str) -> TypedQueue<Counted> {
    DROPS.set(0);
    stub::begin();
    stub::answer(Call::Inserted, 9);
    stub::answer(Call::Deleted, 4);
    stub::answer(Call::TryDeleteMin, stub::code(deletion) as u64);
    TypedQueue::new(3).unwrap()
}

#[test]
fn what_is_left_is_dropped_with_the_queue() {
    let ends: [fn(TypedQueue<Counted>); 2] = [drop, |queue| drop(queue.into_members())];
    for end in ends {
        end(queue_of_15("OK"));
        assert_eq!((DROPS.get(), stub::asked(Call::TryDeleteMin)), (15, 15));
        assert_eq!((stub::queues(), stub::asked(Call::Drop)), (0, 1));
    }
}

#[test]
fn each_member_is_asked_for_what_is_left() {
    drop(queue_of_15("NOTHING"));
    assert_eq!((DROPS.get(), stub::asked(Call::TryDeleteMin)), (0, 3));
    let last = stub::argument(Call::OpenWithBalance, 0) + 2 * 128;
    assert_eq!(stub::argument(Call::TryDeleteMin, 0), last);
    assert_eq!((stub::queues(), stub::asked(Call::Drop)), (0, 1));
}

#[test]
fn a_finish_gives_what_is_left() {
    let account = queue_of_15("OK").finish().unwrap();
    assert_eq!((account.inserted, account.deleted), (27, 12));
    assert_eq!(account.left.len(), 15);
    assert_eq!(stub::asked(Call::Close), 0);
    assert_eq!((stub::queues(), stub::asked(Call::Drop)), (0, 1));
}

#[test]
fn all_numbers_of_an_opening_arrive() {
    stub::begin();
    let mut numbers = klsm::Queue::builder(3);
    let numbers = numbers.k(40).pick(Pick::Random).seed(9).refill(30);
    let queue = numbers.balance(20).open_typed::<String>().unwrap();
    let opened = [1, 2, 3, 4, 5, 6].map(|place| stub::argument(Call::OpenWithBalance, place));
    assert_eq!(opened, [3, 40, stub::pick("Random"), 9, 30, 20]);
    assert_eq!(queue.threads(), 3);
    drop(TypedQueue::<String>::new(5).unwrap());
    let opened = [1, 2, 3, 4, 5, 6].map(|place| stub::argument(Call::OpenWithBalance, place));
    drop(klsm::Queue::new(5).unwrap());
    let plain = [1, 2, 3, 4, 5, 6].map(|place| stub::argument(Call::OpenWithBalance, place));
    assert_eq!((opened[0], opened), (5, plain));
    stub::answer_code(Call::OpenWithBalance, 0, stub::code("BAD_K"));
    assert_eq!(
        stub::said(|| TypedQueue::<u8>::new(2).unwrap_err()),
        "BadK"
    );
}
