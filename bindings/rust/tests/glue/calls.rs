//! The calls of a member: what waits and what does not, each code, and the counts.

use crate::stub::{self, Call};
use klsm::{Bound, Item, Queue};
use std::fmt::Debug;

const SLOT: u64 = 128;

const WRITTEN: Item = Item {
    key: 101,
    load: 102,
    number: 103,
    owner: 104,
};

const FOUND: Bound = Bound {
    queue: 106,
    work: 107,
    items: 108,
};

/// What a call by member 2 says.
fn said<T: Debug>(call: impl FnOnce(&mut klsm::Member<'_>) -> T) -> String {
    let mut queue = Queue::new(3).unwrap();
    let mut member = queue.members().nth(2).unwrap();
    stub::said(|| call(&mut member))
}

/// A call was made so often, each time with the slot of member 2 and the same arguments.
fn assert_asked(call: Call, times: u64) {
    assert_eq!(stub::asked(call), times);
    assert!(stub::repeats(call));
    let queue = stub::argument(Call::OpenWithBalance, 0);
    assert_eq!(stub::argument(call, 0), queue + 2 * SLOT);
}

fn assert_inserts(times: u64) {
    assert_asked(Call::TryInsert, times);
    let arguments = [1, 2].map(|place| stub::argument(Call::TryInsert, place));
    assert_eq!(arguments, [5, 6]);
}

fn of_insertion(name: &str, code: i32) -> String {
    match name {
        "OK" => "Ok(())".to_string(),
        "SPENT" => "Err(Spent)".to_string(),
        "FULL" => "Err(Full)".to_string(),
        "NO_MEMORY" => "Err(NoMemory)".to_string(),
        _ => stub::never("klsm_try_insert", code),
    }
}

fn of_deletion(name: &str, code: i32, call: &str) -> Result<Option<Item>, String> {
    match name {
        "OK" => Ok(Some(WRITTEN)),
        "NOTHING" => Ok(None),
        _ => Err(stub::never(call, code)),
    }
}

/// What a deletion is to say, where its answer is shown so.
fn expected(found: Result<Option<Item>, String>, shown: fn(Option<Item>) -> String) -> String {
    match found {
        Ok(answer) => shown(answer),
        Err(panics) => panics,
    }
}

fn of_sharing(name: &str, code: i32) -> String {
    match name {
        "OK" => "Ok(105)".to_string(),
        "FULL" => "Err(Full)".to_string(),
        "NO_MEMORY" => "Err(NoMemory)".to_string(),
        _ => stub::never("klsm_try_share", code),
    }
}

/// What a bound is to say, where its answer is shown so.
fn of_bound(name: &str, code: i32, shown: fn(Bound) -> String) -> String {
    match name {
        "OK" => shown(FOUND),
        _ => stub::never("klsm_try_bound", code),
    }
}

/// What a rest is to say, where its answer is shown so.
fn of_rest(name: &str, code: i32, shown: &str) -> String {
    match name {
        "OK" => shown.to_string(),
        _ => stub::never("klsm_try_rest", code),
    }
}

/// All codes but that of a held lock.
fn codes() -> impl Iterator<Item = (&'static str, i32)> {
    let codes = stub::codes().into_iter();
    codes.filter(|(name, _)| *name != "BUSY")
}

#[test]
fn what_waits_waits() {
    for (name, code) in codes() {
        for held in [0, 1, 2, 45] {
            stub::answer_code(Call::TryInsert, held, code);
            assert_eq!(said(|member| member.insert(5, 6)), of_insertion(name, code));
            assert_inserts(held + 1);
            stub::answer_code(Call::TryDeleteMin, held, code);
            let found = of_deletion(name, code, "klsm_try_delete_min");
            let answer = said(|member| member.delete_min());
            assert_eq!(answer, expected(found, |answer| format!("{answer:?}")));
            assert_asked(Call::TryDeleteMin, held + 1);
            stub::answer_code(Call::TryDeleteMinAlone, held, code);
            let found = of_deletion(name, code, "klsm_try_delete_min_alone");
            let answer = said(|member| member.delete_min_alone());
            assert_eq!(answer, expected(found, |answer| format!("{answer:?}")));
            assert_asked(Call::TryDeleteMinAlone, held + 1);
            stub::answer_code(Call::TryShare, held, code);
            assert_eq!(said(|member| member.share()), of_sharing(name, code));
            assert_asked(Call::TryShare, held + 1);
            stub::answer_code(Call::TryBound, held, code);
            let bound = of_bound(name, code, |bound| format!("{bound:?}"));
            assert_eq!(said(|member| member.bound()), bound);
            assert_asked(Call::TryBound, held + 1);
            stub::answer_code(Call::TryRest, held, code);
            assert_eq!(said(|member| member.rest()), of_rest(name, code, "()"));
            assert_asked(Call::TryRest, held + 1);
        }
    }
}

#[test]
fn what_does_not_wait_asks_once() {
    for (name, code) in codes() {
        stub::answer_code(Call::TryInsert, 0, code);
        assert_eq!(
            said(|member| member.try_insert(5, 6)),
            of_insertion(name, code)
        );
        assert_inserts(1);
        stub::answer_code(Call::TryDeleteMin, 0, code);
        let found = of_deletion(name, code, "klsm_try_delete_min");
        let answer = said(|member| member.try_delete_min());
        assert_eq!(answer, expected(found, |answer| format!("Ok({answer:?})")));
        assert_asked(Call::TryDeleteMin, 1);
        stub::answer_code(Call::TryDeleteMinAlone, 0, code);
        let found = of_deletion(name, code, "klsm_try_delete_min_alone");
        let answer = said(|member| member.try_delete_min_alone());
        assert_eq!(answer, expected(found, |answer| format!("Ok({answer:?})")));
        assert_asked(Call::TryDeleteMinAlone, 1);
        stub::answer_code(Call::TryShare, 0, code);
        assert_eq!(said(|member| member.try_share()), of_sharing(name, code));
        assert_asked(Call::TryShare, 1);
        stub::answer_code(Call::TryBound, 0, code);
        let bound = of_bound(name, code, |bound| format!("Ok({bound:?})"));
        assert_eq!(said(|member| member.try_bound()), bound);
        assert_asked(Call::TryBound, 1);
        stub::answer_code(Call::TryRest, 0, code);
        let rest = of_rest(name, code, "Ok(())");
        assert_eq!(said(|member| member.try_rest()), rest);
        assert_asked(Call::TryRest, 1);
    }
}

#[test]
fn a_held_lock_is_busy() {
    stub::answer_code(Call::TryInsert, 1, stub::code("OK"));
    assert_eq!(said(|member| member.try_insert(5, 6)), "Err(Busy)");
    assert_inserts(1);
    stub::answer_code(Call::TryDeleteMin, 1, stub::code("OK"));
    assert_eq!(said(|member| member.try_delete_min()), "Err(Busy)");
    assert_asked(Call::TryDeleteMin, 1);
    stub::answer_code(Call::TryDeleteMinAlone, 1, stub::code("OK"));
    assert_eq!(said(|member| member.try_delete_min_alone()), "Err(Busy)");
    assert_asked(Call::TryDeleteMinAlone, 1);
    stub::answer_code(Call::TryShare, 1, stub::code("OK"));
    assert_eq!(said(|member| member.try_share()), "Err(Busy)");
    assert_asked(Call::TryShare, 1);
    stub::answer_code(Call::TryBound, 1, stub::code("OK"));
    assert_eq!(said(|member| member.try_bound()), "Err(Busy)");
    assert_asked(Call::TryBound, 1);
    stub::answer_code(Call::TryRest, 1, stub::code("OK"));
    assert_eq!(said(|member| member.try_rest()), "Err(Busy)");
    assert_asked(Call::TryRest, 1);
}

#[test]
fn each_member_has_its_own_slot() {
    stub::begin();
    let mut queue = Queue::new(16).unwrap();
    let first = stub::argument(Call::OpenWithBalance, 0);
    assert_eq!(queue.members().len(), 16);
    for (number, mut member) in (0..).zip(queue.members()) {
        assert_eq!(u64::from(member.number()), number);
        member.insert(1, 2).unwrap();
        assert_eq!(stub::argument(Call::TryInsert, 0), first + number * SLOT);
    }
}

#[test]
fn counts_are_those_of_the_library() {
    stub::begin();
    stub::answer(Call::Inserted, 9);
    stub::answer(Call::Deleted, 4);
    assert_eq!(said(|member| member.inserted_count()), "9");
    assert_asked(Call::Inserted, 1);
    assert_eq!(said(|member| member.deleted_count()), "4");
    assert_asked(Call::Deleted, 1);
    assert_eq!(Queue::new(16).unwrap().left(), 16 * 5);
}

#[test]
fn the_front_is_that_of_the_library() {
    stub::begin();
    stub::answer(Call::Front, 77);
    assert_eq!(said(|member| member.front()), "77");
    assert_asked(Call::Front, 1);
}
