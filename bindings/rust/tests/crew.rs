//! A crew that counts its open work ends when all is done, and not before.

use klsm::{End, Queue, Work};
use std::sync::Arc;
use std::thread;

const THREADS: usize = 4;

/// A piece of so many levels leads to two with a level less. What each thread found, by its load.
fn crew(k: usize, levels: u64) -> Vec<u64> {
    let mut queue = Queue::builder(THREADS).k(k).refill(0).open().unwrap();
    let work = &Work::new();
    let mut first = queue.members().next().unwrap();
    work.insert(&mut first, 0, levels).unwrap();
    let found = thread::scope(|scope| {
        let members = queue.members();
        let running = members.map(|mut member| {
            scope.spawn(move || {
                let mut found = Vec::new();
                let end = loop {
                    match work.next(&mut member) {
                        Ok(piece) => {
                            for _ in 0..piece.load.min(1) * 2 {
                                work.insert(&mut member, piece.key + 1, piece.load - 1)
                                    .unwrap();
                            }
                            found.push(piece.load);
                            piece.done();
                        }
                        Err(end) => break end,
                    }
                };
                assert_eq!((end, work.left(), work.given_up()), (End::Done, 0, 0));
                found
            })
        });
        let running: Vec<_> = running.collect();
        let join = |thread: thread::ScopedJoinHandle<Vec<u64>>| thread.join().unwrap();
        running.into_iter().flat_map(join).collect()
    });
    assert_eq!((work.left(), queue.left()), (0, 0));
    found
}

#[test]
fn a_crew_ends_when_all_is_done() {
    for k in [0, 4, 64] {
        for levels in [0, 1, 12] {
            let mut found = crew(k, levels);
            found.sort_unstable();
            let of_level = |level| vec![level; 1_usize << (levels - level)];
            assert!(found.into_iter().eq((0..=levels).flat_map(of_level)));
        }
    }
}

/// Words grow to three letters, by threads each of which has its member for its own.
#[test]
fn a_crew_of_threads_that_borrow_nothing() {
    let work = Arc::new(Work::new());
    let mut members = klsm::Queue::builder(THREADS).k(8).refill(0).open_typed::<String>()
        .unwrap()
        .into_members();
    for (key, letter) in (0..).zip('a'..='z') {
        work.insert(&mut members[0], key, letter.to_string())
            .unwrap();
    }
    let running = members.into_iter().map(|mut member| {
        let work = Arc::clone(&work);
        thread::spawn(move || {
            let mut ends = Vec::new();
            while let Ok(piece) = work.next(&mut member) {
                let (item, piece) = piece.into_parts();
                if item.payload.len() < 3 {
                    work.insert(&mut member, item.key, item.payload + ".")
                        .unwrap();
                } else {
                    ends.push(item.payload);
                }
                piece.done();
            }
            ends
        })
    });
    let running: Vec<_> = running.collect();
    let ends = running
        .into_iter()
        .flat_map(|thread| thread.join().unwrap());
    let mut ends: Vec<String> = ends.collect();
    ends.sort_unstable();
    assert!(ends
        .into_iter()
        .eq(('a'..='z').map(|letter| format!("{letter}.."))));
}
