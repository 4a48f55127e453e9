//! Finishing and dropping.

use crate::stub::{self, Call};
use klsm::{FinishError, Item, Queue};

/// A queue of three members, each with so many items.
fn queue_of(each: u64) -> Queue {
    stub::begin();
    stub::answer(Call::Inserted, 4 + each);
    stub::answer(Call::Deleted, 4);
    stub::leave(12 + 3 * each, 12, 3 * each);
    Queue::new(3).unwrap()
}

/// A closing was made once, of the queue that was opened, into an array of so many items.
fn assert_closed_into(room: u64) {
    assert_eq!(stub::asked(Call::Close), 1);
    let arguments = [0, 1, 2, 3].map(|place| stub::argument(Call::Close, place));
    assert_eq!(arguments[0], stub::argument(Call::OpenWithBalance, 0));
    assert!(arguments[1] != 0 && arguments[2] != 0);
    assert_eq!(arguments[3], room);
}

/// The array has room for one item more than there are, so that it is none of no items.
#[test]
fn a_finish_gives_what_the_library_wrote() {
    for each in [5, 0] {
        let account = queue_of(each).finish().unwrap();
        assert_closed_into(3 * each + 1);
        assert_eq!((account.inserted, account.deleted), (12 + 3 * each, 12));
        let items = (0..3 * each).map(|i| Item {
            key: i,
            load: 10 + i,
            number: 20 + i,
            owner: 1,
        });
        assert!(account.left.into_iter().eq(items));
    }
}

#[test]
fn what_is_finished_is_not_dropped_a_second_time() {
    queue_of(5).finish().unwrap();
    assert_eq!(stub::queues(), 0);
    assert!(stub::asked(Call::Drop) <= 1);
}

#[test]
fn want_of_memory_gives_the_queue_back() {
    let queue = queue_of(5);
    stub::answer(Call::Close, stub::code("NO_MEMORY") as u64);
    let Err(FinishError::NoMemory(mut queue)) = queue.finish() else {
        panic!("no queue came back");
    };
    assert_closed_into(16);
    assert_eq!((stub::queues(), stub::asked(Call::Drop)), (1, 0));
    assert_eq!((queue.threads(), queue.left()), (3, 15));
    drop(queue);
    assert_eq!((stub::queues(), stub::asked(Call::Drop)), (0, 1));
}

#[test]
fn each_code_is_its_own_error() {
    for (name, code) in stub::codes() {
        let queue = queue_of(0);
        stub::answer(Call::Close, code as u64);
        let said = stub::said(|| queue.finish());
        assert_closed_into(1);
        match name {
            "OK" => assert!(said.starts_with("Ok(Account {")),
            "NO_MEMORY" => assert!(said.starts_with("Err(NoMemory(Queue {")),
            "SHARED" => assert_eq!(said, "Err(Shared)"),
            _ => assert_eq!(said, stub::never("klsm_close_into", code)),
        }
        assert_eq!((stub::queues(), stub::asked(Call::Drop)), (0, 1));
    }
}

#[test]
fn each_queue_is_dropped_once_wherever_it_was_moved() {
    stub::begin();
    let mut queues = vec![Queue::new(1).unwrap(), Queue::new(2).unwrap()];
    queues.swap(0, 1);
    assert_eq!(stub::asked(Call::Drop), 0);
    queues[0] = Queue::new(3).unwrap();
    assert_eq!((stub::queues(), stub::asked(Call::Drop)), (2, 1));
    drop(queues);
    assert_eq!((stub::queues(), stub::asked(Call::Drop)), (0, 3));
}
