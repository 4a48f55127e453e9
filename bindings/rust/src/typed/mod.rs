//! A queue whose items carry a payload of a type.

mod member;
mod owned;
mod payload;

pub use member::{TypedMember, TypedMembers};
pub use owned::OwnedTypedMember;

use crate::errors::{OpenError, TypedFinishError};
use crate::owned::HasQueue;
use crate::queue::{Account, Queue};
use crate::sys::RawItem;
use std::cmp::Ordering;
use std::fmt;
use std::marker::PhantomData;
use std::sync::Mutex;

/// An item of a [`TypedQueue`]. Items are ordered by key, then owner, then number, and no two items of one
/// queue have the same owner and number.
#[derive(Clone, Copy, Debug, PartialEq, Eq, Hash)]
pub struct TypedItem<T> {
    /// What the items are ordered by first: the least key is the most urgent.
    pub key: u64,
    /// What the item carries for its user.
    pub payload: T,
    /// How many insertions the owner had made before this one.
    pub number: u64,
    /// The number of the member that inserted it.
    pub owner: u32,
}

impl<T: Ord> Ord for TypedItem<T> {
    fn cmp(&self, other: &Self) -> Ordering {
        let stamp = |item: &Self| (item.key, item.owner, item.number);
        let order = stamp(self).cmp(&stamp(other));
        order.then_with(|| self.payload.cmp(&other.payload))
    }
}

impl<T: Ord> PartialOrd for TypedItem<T> {
    fn partial_cmp(&self, other: &Self) -> Option<Ordering> {
        Some(self.cmp(other))
    }
}

impl<T> TypedItem<T> {
    /// # Safety
    ///
    /// The item was deleted from a typed queue of this `T`, and its load is used for nothing else.
    unsafe fn of(item: RawItem) -> Self {
        TypedItem {
            key: item.key,
            // SAFETY: each insertion into such a queue leaves a load of a `T`, and each item that was
            // inserted is deleted once.
            payload: unsafe { payload::payload_of(item.load) },
            number: item.number,
            owner: item.owner,
        }
    }
}

/// A [`Queue`] whose items carry a payload each, which moves in by an insertion and out by a deletion.
///
/// A payload of more than eight bytes is on the heap while it is in the queue, in a block of its own. It is
/// dropped once: by who deletes it, or else with the queue. An insertion that is refused gives it back.
///
/// ```
/// # fn main() -> Result<(), Box<dyn std::error::Error>> {
/// let mut queue = klsm::TypedQueue::new(4)?;
/// let mut member = queue.members().next().ok_or("no member")?; // to be sent to its thread
/// member.insert(7, "seven".to_string())?;
/// member.insert(3, "three".to_string())?;
/// let item = member.delete_min().ok_or("no item")?;
/// assert_eq!((item.key, item.payload.as_str()), (3, "three"));
/// let account = queue.finish()?;
/// assert_eq!(account.left[0].payload, "seven");
/// # Ok(())
/// # }
/// ```
pub struct TypedQueue<T> {
    queue: Queue,
    // It has payloads as a mutex has its content: they go from thread to thread, and no two threads see one
    // at once. So it is `Send` and `Sync` where they are `Send`, it drops them, and neither it nor a member
    // becomes one of payloads that live less long.
    payloads: PhantomData<Mutex<T>>,
}

impl<T> TypedQueue<T> {
    /// Opens a queue as [`Queue::new`] does. [`Builder::open_typed`](crate::Builder::open_typed) opens one
    /// whose other numbers are named.
    ///
    /// # Errors
    ///
    /// Those of [`Queue::new`].
    pub fn new(threads: usize) -> Result<TypedQueue<T>, OpenError>
    where
        T: Send,
    {
        Queue::builder(threads).open_typed()
    }

    /// The typed queue over one that was just opened.
    pub(crate) fn over(queue: Queue) -> TypedQueue<T>
    where
        T: Send,
    {
        TypedQueue {
            queue,
            payloads: PhantomData,
        }
    }

    /// How many members it has.
    #[must_use]
    pub fn threads(&self) -> usize {
        self.queue.threads()
    }

    /// Lends the members, each once, as [`Queue::members`] does.
    pub fn members(&mut self) -> TypedMembers<'_, T> {
        TypedMembers::of(self)
    }

    /// Gives the queue to its members, as [`Queue::into_members`] does.
    #[must_use]
    pub fn into_members(self) -> Vec<OwnedTypedMember<T>> {
        OwnedTypedMember::all_of(self)
    }

    /// How many items are in the queue: those inserted less those deleted. It takes some nanoseconds for
    /// each member.
    #[must_use]
    pub fn left(&mut self) -> u64 {
        self.queue.left()
    }

    /// Ends the queue and gives the account: the totals, and the items that are left, in ascending order.
    ///
    /// It takes memory for what is left, and no lock.
    ///
    /// # Errors
    ///
    /// Where it is out of memory, the error gives the queue back as it was.
    pub fn finish(mut self) -> Result<Account<TypedItem<T>>, TypedFinishError<T>> {
        let (inserted, deleted) = self.queue.counts();
        let mut left = Vec::new();
        if left
            .try_reserve_exact((inserted - deleted) as usize)
            .is_err()
        {
            return Err(TypedFinishError(self));
        }
        left.extend(self.remaining());
        left.sort_unstable_by_key(|item: &TypedItem<T>| (item.key, item.owner, item.number));
        Ok(Account {
            inserted,
            deleted,
            left,
        })
    }

    /// Takes out what is left, in no order and with no memory.
    fn remaining(&mut self) -> impl Iterator<Item = TypedItem<T>> + '_ {
        // SAFETY: these items are deleted, and each is given here once.
        self.queue.remaining().map(|item| unsafe { TypedItem::of(item) })
    }
}

/// What an iterator has still to give, which is dropped with it.
struct Dropping<I: Iterator>(I);

impl<I: Iterator> Drop for Dropping<I> {
    fn drop(&mut self) {
        self.0.by_ref().for_each(drop);
    }
}

impl<T> Drop for TypedQueue<T> {
    fn drop(&mut self) {
        // Where the drop of a payload panics, this loop ends, and the drop of `remaining` goes on.
        let mut remaining = Dropping(self.remaining());
        remaining.0.by_ref().for_each(drop);
    }
}

impl<T> HasQueue for TypedQueue<T> {
    fn queue(&self) -> &Queue {
        &self.queue
    }
}

impl<T> fmt::Debug for TypedQueue<T> {
    fn fmt(&self, to: &mut fmt::Formatter<'_>) -> fmt::Result {
        to.debug_struct("TypedQueue")
            .field("threads", &self.threads())
            .finish_non_exhaustive()
    }
}
