//! What each call answers, and what its arguments mean.

use klsm::{Builder, InsertError, Item, OpenError, Pick, Queue, TryInsertError};

#[test]
fn the_counts_of_an_opening_are_judged_in_their_order() {
    let refusal = |threads, k| Queue::builder(threads).k(k).refill(0).open().err();
    assert_eq!(refusal(0, 4), Some(OpenError::BadThreads));
    assert_eq!(refusal(65, 4), Some(OpenError::BadThreads));
    assert_eq!(refusal(65, 1_025), Some(OpenError::BadThreads));
    assert_eq!(refusal(usize::MAX, 4), Some(OpenError::BadThreads));
    assert_eq!(refusal(4, 1_025), Some(OpenError::BadK));
    assert_eq!(refusal(4, usize::MAX), Some(OpenError::BadK));
    assert_eq!(refusal(1, 0), None);
    assert_eq!(refusal(64, 1_024), None);
}

#[test]
fn a_refill_above_k_counts_as_k() {
    let refusal = |threads, k, refill| Queue::builder(threads).k(k).refill(refill).open().err();
    assert_eq!(refusal(4, 8, 9), None);
    assert_eq!(refusal(4, 0, 1), None);
    assert_eq!(refusal(4, 64, usize::MAX), None);
    assert_eq!(refusal(4, 1_025, 1_026), Some(OpenError::BadK));
    assert_eq!(refusal(65, 8, 9), Some(OpenError::BadThreads));
    assert_eq!(refusal(0, 1_025, 1_026), Some(OpenError::BadThreads));
    assert_eq!(refusal(4, 8, 8), None);
    assert_eq!(refusal(64, 1_024, 1_024), None);
    assert_eq!(Queue::builder(0).open().err(), Some(OpenError::BadThreads));
    assert_eq!(
        Queue::builder(4).k(1_025).open().err(),
        Some(OpenError::BadK)
    );
}

/// How many items move when member 1 takes the least of a thousand keys that member 0 inserted: the next
/// deletion of member 0 gives the first that did not move.
fn moved_in(mut queue: Queue) -> u64 {
    let mut members = queue.members();
    let (mut one, mut other) = (members.next().unwrap(), members.next().unwrap());
    for key in 0..1_000 {
        one.insert(key, key).unwrap();
    }
    assert_eq!(other.delete_min().map(|item| item.key), Some(0));
    let moved = one.delete_min().unwrap().key - 1;
    for key in 1..=moved {
        assert_eq!(other.delete_min().map(|item| item.key), Some(key));
    }
    moved
}

#[test]
fn a_refill_moves_items() {
    let moved_by = |builder: &mut Builder| moved_in(builder.open().unwrap());
    let named = |k, refill| moved_by(Queue::builder(2).k(k).refill(refill).balance(0));
    assert_eq!(named(64, 16), 16);
    assert_eq!(named(64, 5), 5);
    assert_eq!(named(64, 0), 0);
    assert_eq!(named(8, 8), 4);
    assert_eq!(named(8, 16), 4);
    assert_eq!(named(0, 16), 0);
    let (one, other) = (
        Queue::builder(2),
        Queue::builder(2).seed(0).pick(Pick::First).clone(),
    );
    assert_eq!(format!("{one:?}"), format!("{other:?}"));
}

/// Member 0 keeps small items, and member 1 a greater one, which it deletes first where it does not balance.
#[test]
fn a_balance_arrives() {
    let first_of = |builder: &mut Builder| {
        let mut queue = builder.refill(0).open().unwrap();
        let mut members = queue.members();
        let (mut one, mut other) = (members.next().unwrap(), members.next().unwrap());
        for key in 0..10 {
            one.insert(key, key).unwrap();
        }
        other.insert(100, 100).unwrap();
        other.delete_min().unwrap().key
    };
    assert_eq!(first_of(&mut Queue::builder(2)), 100);
    assert_eq!(first_of(Queue::builder(2).balance(2)), 100);
    assert_eq!(first_of(Queue::builder(2).balance(u32::MAX)), 100);
    assert_eq!(first_of(Queue::builder(2).balance(1)), 0);
}

#[test]
fn a_pick_and_a_seed_arrive() {
    let first_of = |builder: &mut Builder| {
        let mut queue = builder.open().unwrap();
        let mut members = queue.members();
        let (mut one, mut other) = (members.next().unwrap(), members.next().unwrap());
        for key in 0..1_000 {
            one.insert(key, key).unwrap();
        }
        other.delete_min().unwrap().key
    };
    assert_eq!(first_of(Queue::builder(2).k(64)), 0);
    assert_eq!(first_of(Queue::builder(2).k(64).pick(Pick::Last)), 64);
    let by_seed = |seed| first_of(Queue::builder(2).k(64).pick(Pick::Random).seed(seed));
    assert!((0..20).any(|seed| by_seed(seed) != by_seed(20)));
    assert_eq!(by_seed(3), by_seed(3));
}

#[test]
fn an_item_comes_back_as_it_was_given() {
    let mut queue = Queue::builder(5).k(3).pick(Pick::Random).seed(77).refill(0).open().unwrap();
    let (key, load) = (0xfedc_ba98_7654_3210, 0x0123_4567_89ab_cdef);
    let mut member = queue.members().nth(3).unwrap();
    assert_eq!(member.number(), 3);
    member.insert(1, 2).unwrap();
    assert_eq!(member.delete_min().map(|item| item.number), Some(0));
    member.insert(key, load).unwrap();
    let expected = Item {
        key,
        load,
        number: 1,
        owner: 3,
    };
    assert_eq!(member.delete_min(), Some(expected));
    assert_eq!(member.delete_min(), None);
    assert_eq!(member.try_delete_min(), Ok(None));
    assert_eq!((member.inserted_count(), member.deleted_count()), (2, 2));
}

#[test]
fn each_member_is_lent_once_and_again() {
    let mut queue = Queue::builder(64).k(0).refill(0).open().unwrap();
    assert_eq!(queue.threads(), 64);
    for round in 0..2 {
        let members: Vec<_> = queue.members().collect();
        assert_eq!(members.len(), 64);
        for (number, mut member) in members.into_iter().enumerate() {
            assert_eq!(member.number() as usize, number);
            assert_eq!(member.inserted_count(), round);
            assert_eq!(member.try_insert(number as u64, round), Ok(()));
        }
    }
    assert_eq!(queue.members().len(), 64);
    assert_eq!(queue.members().next_back().unwrap().number(), 63);
    assert_eq!(queue.left(), 128);
}

#[test]
fn what_is_left_is_given_in_ascending_order() {
    let mut queue = Queue::builder(2).k(2).refill(0).open().unwrap();
    for mut member in queue.members() {
        for key in [9, 1, 5, 5, 3] {
            member.insert(key, 10 * key).unwrap();
        }
    }
    let gone = queue.members().next().unwrap().delete_min().unwrap();
    let account = queue.finish().unwrap();
    assert_eq!((account.inserted, account.deleted), (10, 1));
    assert_eq!(account.left.len(), 9);
    assert!(account.left.windows(2).all(|two| two[0] < two[1]));
    assert!(account.left.iter().all(|item| item.load == 10 * item.key));
    assert!(!account.left.contains(&gone));
}

#[test]
fn a_queue_with_items_may_be_dropped() {
    let mut queue = Queue::builder(3).k(8).refill(0).open().unwrap();
    for mut member in queue.members() {
        for key in 0..100 {
            member.insert(key, 0).unwrap();
        }
    }
    drop(queue);
    drop(Queue::builder(1).k(0).refill(0).open().unwrap());
}

#[test]
fn errors_have_a_text_each() {
    let texts = [
        OpenError::Version { found: 2, expected: 1 }.to_string(),
        OpenError::BadThreads.to_string(),
        OpenError::BadK.to_string(),
        OpenError::NoMemory.to_string(),
        InsertError::Spent.to_string(),
        InsertError::Full.to_string(),
        TryInsertError::Busy.to_string(),
    ];
    for (i, text) in texts.iter().enumerate() {
        assert!(!text.is_empty() && !texts[..i].contains(text), "{text}");
    }
    for why in [InsertError::Spent, InsertError::Full, InsertError::NoMemory] {
        assert_eq!(TryInsertError::from(why).to_string(), why.to_string());
    }
    let boxed: Box<dyn std::error::Error> = Box::new(Queue::builder(1).k(1_025).refill(0).open().unwrap_err());
    assert_eq!(boxed.to_string(), "k is above 1024");
}
