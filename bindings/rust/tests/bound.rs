//! One thread drives all members beside a plain set of what is in the queue: a deletion passes over at
//! most T·k smaller items, and "nothing" comes where at most (T-1)·k are left.

use klsm::{Item, Member, Pick, Queue};
use std::collections::BTreeSet;

const CALLS: usize = 6_000;

struct Draw(u64);

impl Draw {
    fn below(&mut self, limit: u64) -> u64 {
        self.0 ^= self.0 << 13;
        self.0 ^= self.0 >> 7;
        self.0 ^= self.0 << 17;
        self.0 % limit
    }
}

/// What is in the queue, and the greatest number of smaller items that a deletion passed over.
#[derive(Default)]
struct Model {
    live: BTreeSet<Item>,
    worst: usize,
}

impl Model {
    fn insert(&mut self, member: &mut Member<'_>, key: u64, load: u64) {
        let item = Item {
            key,
            load,
            number: member.inserted_count(),
            owner: member.number(),
        };
        member.insert(key, load).unwrap();
        assert!(self.live.insert(item));
    }

    fn delete(&mut self, member: &mut Member<'_>, threads: usize, k: usize) {
        match member.delete_min() {
            Some(item) => {
                assert!(self.live.remove(&item), "{item:?} is not in the queue");
                let passed_over = self.live.range(..item).count();
                assert!(passed_over <= threads * k, "{passed_over} are smaller");
                self.worst = self.worst.max(passed_over);
            }
            None => {
                let live = self.live.len();
                assert!(live <= (threads - 1) * k, "nothing, but {live} items live");
            }
        }
    }
}

fn compare(threads: usize, k: usize, pick: Pick, refill: usize, balance: u32) {
    let mut numbers = Queue::builder(threads);
    let mut queue = numbers
        .k(k)
        .pick(pick)
        .seed(3)
        .refill(refill)
        .balance(balance)
        .open()
        .unwrap();
    let mut draw = Draw(0x9e37_79b9_7f4a_7c15 + (threads * 100 + k) as u64);
    let mut model = Model::default();
    let mut members: Vec<_> = queue.members().collect();
    for call in 0..CALLS {
        let member = &mut members[draw.below(threads as u64) as usize];
        // More insertions than deletions in the first half, and fewer in the second.
        let inserts = draw.below(10) < if call < CALLS / 2 { 7 } else { 3 };
        if inserts {
            let key = draw.below(1_000);
            model.insert(member, key, call as u64);
        } else {
            model.delete(member, threads, k);
        }
    }
    let deleted = members.iter().map(Member::deleted_count).sum::<u64>();
    let account = queue.finish().unwrap();
    assert_eq!(account.deleted, deleted);
    assert!(account.left.iter().eq(model.live.iter()));
    if k == 0 || threads == 1 {
        assert_eq!(model.worst, 0);
    }
}

#[test]
fn a_deletion_passes_over_few_smaller_items() {
    for pick in [Pick::First, Pick::Last, Pick::Random] {
        for (threads, k) in [(1, 0), (1, 64), (2, 1), (3, 4), (4, 0), (4, 64), (16, 8)] {
            for refill in [0, 1, 8, 16, 64].into_iter().filter(|refill| *refill <= k) {
                compare(threads, k, pick, refill, 0);
            }
        }
    }
}

#[test]
fn and_so_it_does_with_balances() {
    for pick in [Pick::First, Pick::Last, Pick::Random] {
        for (threads, k) in [(1, 1_024), (2, 64), (4, 1_024), (16, 256), (64, 16)] {
            for balance in [1, 3, 16, u32::MAX] {
                compare(threads, k, pick, 0, balance);
                compare(threads, k, pick, k, balance);
            }
        }
    }
}
