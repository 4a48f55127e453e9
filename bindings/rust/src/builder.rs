//! How a queue is opened whose numbers are named one by one.

use crate::errors::OpenError;
use crate::queue::{Pick, Queue};
use crate::typed::TypedQueue;

// Those of klsm.h, as a test compares.
const DEFAULT_K: usize = 1024;
const DEFAULT_REFILL: usize = 16;
const DEFAULT_BALANCE: u32 = 16;

/// The numbers of a queue that is to be opened: what [`Queue::builder`] gives. What is not named is the default, a good
/// number where many threads share small items: klsm.h has these numbers.
///
/// A deletion that took its item from the shared part moves the smallest shared items to its member's own
/// part, at most `refill` of them and at most half as many as there is room for, rounded up, so that the
/// member's next deletions need its own lock alone. On average more smaller items are passed over,
/// since what moved, as a rule up to `refill` items for each member, waits in own parts.
///
/// Before each `balance`-th deletion of a member the next other member in turn is looked at, unless its lock
/// is held. Where its smallest item is smaller than the member's own ones and its key is below the front, up to
/// four of its smallest items move to the member's part, at most half of them, rounded up. So members whose
/// parts have drifted apart come to the smaller items again: it pays where nearly all items lie in own parts.
/// The bound stays T·k with both.
#[derive(Clone, Debug)]
pub struct Builder {
    threads: usize,
    k: usize,
    pick: Pick,
    seed: u64,
    refill: usize,
    balance: u32,
}

impl Builder {
    pub(crate) fn of(threads: usize) -> Builder {
        Builder {
            threads,
            k: DEFAULT_K,
            pick: Pick::First,
            seed: 0,
            refill: DEFAULT_REFILL,
            balance: DEFAULT_BALANCE,
        }
    }

    /// How many items each member keeps for itself at most, 0 to 1,024.
    pub fn k(&mut self, k: usize) -> &mut Builder {
        self.k = k;
        self
    }

    /// Which shared item a deletion takes. It is [`Pick::First`] until it is named.
    pub fn pick(&mut self, pick: Pick) -> &mut Builder {
        self.pick = pick;
        self
    }

    /// What [`Pick::Random`] is seeded with. It is 0 until it is named.
    pub fn seed(&mut self, seed: u64) -> &mut Builder {
        self.seed = seed;
        self
    }

    /// How many items a deletion moves at most, 0 for none. A number above k counts as k.
    pub fn refill(&mut self, refill: usize) -> &mut Builder {
        self.refill = refill;
        self
    }

    /// How often a member balances with another one: before each `balance`-th of its deletions, and never where
    /// this is 0.
    pub fn balance(&mut self, balance: u32) -> &mut Builder {
        self.balance = balance;
        self
    }

    /// Opens a queue. It takes memory, and no lock.
    ///
    /// # Errors
    ///
    /// A number is out of its range, out of memory, or the library is of another version.
    pub fn open(&self) -> Result<Queue, OpenError> {
        let refill = self.refill.min(self.k);
        let (pick, seed, balance) = (self.pick, self.seed, self.balance);
        Queue::open(self.threads, self.k, pick, seed, refill, balance)
    }

    /// Opens a queue whose items carry payloads, as [`open`](Builder::open) does one of loads.
    ///
    /// # Errors
    ///
    /// Those of [`open`](Builder::open).
    pub fn open_typed<T: Send>(&self) -> Result<TypedQueue<T>, OpenError> {
        self.open().map(TypedQueue::over)
    }
}
