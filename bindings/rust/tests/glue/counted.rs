//! Pieces of work by each kind of member: one that is refused opens none, and what is found is a piece.

use crate::stub::{self, Call};
use klsm::{DeleteMin, End, Insert, InsertError, Queue, Refused, TypedQueue, Work};
use std::fmt::Debug;

/// What an insertion of this load with the key 5 answers, and how many pieces are open then.
fn inserted<M: Insert>(member: &mut M, load: M::Load) -> (Result<(), M::Error>, u64) {
    let work = Work::new();
    let answer = work.insert(member, 5, load);
    assert_eq!(work.given_up(), 0);
    (answer, work.left())
}

#[test]
fn an_insertion_opens_a_piece() {
    stub::begin();
    let mut queue = Queue::new(3).unwrap();
    let mut member = queue.members().nth(1).unwrap();
    assert_eq!(inserted(&mut member, 6), (Ok(()), 1));
    let arrived = [1, 2].map(|place| stub::argument(Call::TryInsert, place));
    assert_eq!(arrived, [5, 6]);
    let mut owned = queue.into_members().remove(2);
    assert_eq!(inserted(&mut owned, 6), (Ok(()), 1));
    let mut typed = TypedQueue::new(3).unwrap();
    let mut member = typed.members().nth(1).unwrap();
    assert_eq!(inserted(&mut member, ()), (Ok(()), 1));
    let mut owned = typed.into_members().remove(2);
    assert_eq!(inserted(&mut owned, ()), (Ok(()), 1));
    assert_eq!(stub::asked(Call::TryInsert), 4);
}

#[test]
fn a_refused_insertion_opens_none() {
    stub::answer_code(Call::TryInsert, 2, stub::code("FULL"));
    let mut queue = Queue::new(3).unwrap();
    let mut member = queue.members().nth(1).unwrap();
    assert_eq!(inserted(&mut member, 6), (Err(InsertError::Full), 0));
    let mut owned = queue.into_members().remove(2);
    assert_eq!(inserted(&mut owned, 6), (Err(InsertError::Full), 0));
    let refused = || Refused {
        payload: "payload".to_string(),
        why: InsertError::Full,
    };
    let mut typed = TypedQueue::new(3).unwrap();
    let mut member = typed.members().nth(1).unwrap();
    let answer = inserted(&mut member, refused().payload);
    assert_eq!(answer, (Err(refused()), 0));
    let mut owned = typed.into_members().remove(2);
    let answer = inserted(&mut owned, refused().payload);
    assert_eq!(answer, (Err(refused()), 0));
}

/// What is found where two pieces are open, and then where none is.
fn found<M: DeleteMin>(member: &mut M)
where
    M::Item: Debug,
{
    let work = Work::new();
    work.open(2);
    stub::answer(Call::TryDeleteMin, stub::code("OK") as u64);
    let piece = work.next(member).unwrap();
    assert!(format!("{piece:?}").contains("key: 101"));
    piece.done();
    drop(work.next(member).unwrap());
    assert_eq!((work.left(), work.given_up()), (0, 1));
    stub::answer(Call::TryDeleteMin, stub::code("NOTHING") as u64);
    assert_eq!(work.next(member).unwrap_err(), End::Done);
}

#[test]
fn each_kind_of_member_gives_pieces() {
    stub::begin();
    let mut queue = Queue::new(3).unwrap();
    found(&mut queue.members().nth(1).unwrap());
    found(&mut queue.into_members().remove(1));
    let mut typed = TypedQueue::<()>::new(3).unwrap();
    found(&mut typed.members().nth(1).unwrap());
    found(&mut typed.into_members().remove(1));
}
