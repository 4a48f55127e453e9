//! A queue: opened, lent by its members, and finished.

use crate::builder::Builder;
use crate::errors::{FinishError, OpenError};
use crate::member::{deleted_by, inserted_by, Members};
use crate::owned::{HasQueue, OwnedMember};
use crate::remaining::Remaining;
use crate::sys::{self, code, Item, Slot, Slots, Totals};
use std::fmt;
use std::ptr::NonNull;

/// Which of the k+1 smallest shared items a deletion takes, where it takes a shared one. Of those up to
/// the one that is picked, the first that its own member inserted goes before it.
#[derive(Clone, Copy, Debug, Default, PartialEq, Eq, Hash)]
#[repr(u32)]
#[non_exhaustive]
pub enum Pick {
    /// The smallest of them.
    #[default]
    First = 0,
    /// The greatest of them.
    Last = 1,
    /// A random one. Member t draws from a generator of its own, seeded with `seed + t`.
    Random = 2,
}

/// What a queue comes to: each item that was inserted was deleted or is left, once.
#[derive(Clone, Debug, Default, PartialEq, Eq)]
pub struct Account<I = Item> {
    /// How many insertions all members made.
    pub inserted: u64,
    /// How many items all members deleted.
    pub deleted: u64,
    /// The items that were not deleted, in ascending order.
    pub left: Vec<I>,
}

/// A relaxed priority queue with a member for each of up to 64 threads.
///
/// Its own memory is 8 KiB and what the library takes for its members and items. Dropping a queue
/// drops the items that are left; [`finish`](Queue::finish) gives them. Its `Debug` does not say how many are
/// left: to count them takes the queue by `&mut`, as [`left`](Queue::left) does.
pub struct Queue {
    // The library wants this memory to stay where it is. It is boxed, and no reference to it leaves
    // this crate.
    slots: Box<Slots>,
    threads: usize,
}

// SAFETY: a slot is not `Sync`, since the library wants one call at a time for each. No call that takes a
// queue by `&` is one of the library, or looks into a slot: `threads` and `Debug` read a number that stays
// as it is, and `places` gives pointers, each of which is used by the `Part` that has it alone.
unsafe impl Sync for Queue {}

impl Queue {
    /// Opens a queue for `threads` threads, 1 to 64, with the defaults. It takes memory, and no lock.
    /// [`builder`](Queue::builder) names other numbers.
    ///
    /// # Errors
    ///
    /// The number is out of its range, out of memory, or the library is of another version.
    pub fn new(threads: usize) -> Result<Queue, OpenError> {
        Queue::builder(threads).open()
    }

    /// Begins a queue for `threads` threads, 1 to 64, whose other numbers are the defaults of a
    /// [`Builder`] until they are named.
    ///
    /// ```
    /// # fn main() -> Result<(), klsm::OpenError> {
    /// let queue = klsm::Queue::builder(4).k(64).refill(16).open()?;
    /// assert_eq!(queue.threads(), 4);
    /// # Ok(())
    /// # }
    /// ```
    #[must_use]
    pub fn builder(threads: usize) -> Builder {
        Builder::of(threads)
    }

    pub(crate) fn open(
        threads: usize,
        k: usize,
        pick: Pick,
        seed: u64,
        refill: usize,
        balance: u32,
    ) -> Result<Queue, OpenError> {
        // SAFETY: the call takes nothing and answers a constant.
        let version = unsafe { sys::klsm_abi() };
        if version != sys::ABI {
            return Err(OpenError::Version {
                found: version,
                expected: sys::ABI,
            });
        }
        let mut slots = Box::new(Slots::closed());
        let (at, pick): (*mut Slots, _) = (&mut *slots, pick as u32);
        // SAFETY: the pointer is that of the memory of a closed queue, which no one else has.
        match unsafe { sys::klsm_open_with_balance(at, threads, k, pick, seed, refill, balance) } {
            code::OK => Ok(Queue { slots, threads }),
            code::BAD_COUNT => Err(OpenError::BadThreads),
            code::BAD_K => Err(OpenError::BadK),
            code::NO_MEMORY => Err(OpenError::NoMemory),
            other => sys::unexpected("klsm_open_with_balance", other),
        }
    }

    /// How many members it has.
    #[must_use]
    pub fn threads(&self) -> usize {
        self.threads
    }

    /// Lends the members, each once, in the order of their numbers. Threads borrow them, such as those
    /// of [`std::thread::scope`]. Once all are done, the members may be lent again.
    pub fn members(&mut self) -> Members<'_> {
        Members::of(&mut self.slots.members[..self.threads])
    }

    /// Gives the queue to its members, which own it together, in the order of their numbers: for
    /// threads that borrow nothing, such as those of a pool.
    #[must_use]
    pub fn into_members(self) -> Vec<OwnedMember> {
        OwnedMember::all_of(self)
    }

    /// How many items are in the queue: those inserted less those deleted. It takes some nanoseconds for
    /// each member.
    #[must_use]
    pub fn left(&mut self) -> u64 {
        let (inserted, deleted) = self.counts();
        inserted - deleted
    }

    /// How many insertions and deletions all members made.
    pub(crate) fn counts(&mut self) -> (u64, u64) {
        let slots = &self.slots.members[..self.threads];
        let inserted = slots.iter().map(inserted_by).sum();
        let deleted = slots.iter().map(deleted_by).sum();
        (inserted, deleted)
    }

    /// Takes out what is left, in no order and with no memory.
    pub(crate) fn remaining(&mut self) -> Remaining<'_> {
        Remaining::of(self)
    }

    /// Where the slots of the members are, in the order of their numbers.
    pub(crate) fn places(&self) -> impl Iterator<Item = NonNull<Slot>> + '_ {
        self.slots.members[..self.threads].iter().map(Slot::place)
    }

    /// Ends the queue and gives the account: the totals, and the items that are left.
    ///
    /// It takes memory for what is left, 32 bytes for each item and as much again while it lasts, and
    /// no lock.
    ///
    /// # Errors
    ///
    /// Where it is out of memory, [`FinishError::NoMemory`] gives the queue back as it was.
    pub fn finish(mut self) -> Result<Account, FinishError> {
        let mut left = Vec::new();
        // One more, so that the pointer leads to an item also where none is left.
        let room = self.left() as usize + 1;
        if left.try_reserve_exact(room).is_err() {
            return Err(FinishError::NoMemory(self));
        }
        left.resize(room, Item::default());
        let mut totals = Totals::default();
        // SAFETY: the queue is as the library left it, and no member is lent. `totals` and `left` lie
        // outside of it, and `left` has room for as many items as it is long.
        let code = unsafe {
            sys::klsm_close_into(&mut *self.slots, &mut totals, left.as_mut_ptr(), left.len())
        };
        match code {
            code::OK => {
                debug_assert_eq!(totals.left + 1, room as u64);
                left.truncate(totals.left as usize);
                Ok(Account {
                    inserted: totals.inserted,
                    deleted: totals.deleted,
                    left,
                })
            }
            code::NO_MEMORY => Err(FinishError::NoMemory(self)),
            code::SHARED => Err(FinishError::Shared),
            other => sys::unexpected("klsm_close_into", other),
        }
    }
}

impl HasQueue for Queue {
    fn queue(&self) -> &Queue {
        self
    }
}

impl Drop for Queue {
    fn drop(&mut self) {
        // SAFETY: the queue is open or closed, as the library left it, and no member is lent.
        unsafe { sys::klsm_drop(&mut *self.slots) };
    }
}

impl fmt::Debug for Queue {
    // How many items are left it cannot say: the counts are read by who has the queue for itself, as `left` has.
    fn fmt(&self, to: &mut fmt::Formatter<'_>) -> fmt::Result {
        to.debug_struct("Queue")
            .field("threads", &self.threads)
            .finish_non_exhaustive()
    }
}
