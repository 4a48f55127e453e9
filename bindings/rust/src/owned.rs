//! Members that own their queue together: for pools, and for threads that borrow nothing.

use crate::errors::{Busy, InsertError, ShareError, TryInsertError, TryShareError};
use crate::member::{deleted_by, inserted_by, Member};
use crate::queue::Queue;
use crate::sys::{Bound, Item, Slot};
use crate::work::{DeleteMin, Insert};
use std::fmt;
use std::ptr::NonNull;
use std::sync::Arc;

/// What has a queue as a whole: a queue itself, or one with payloads.
pub(crate) trait HasQueue {
    fn queue(&self) -> &Queue;
}

/// A slot of a queue that the parts own together.
///
/// Each slot has one part, which alone uses it. While there are parts the queue is behind an `Arc`, so it
/// is neither moved nor borrowed by `&mut`; and its slots lie in a box of their own.
pub(crate) struct Part<Q> {
    slot: NonNull<Slot>,
    number: u32,
    whole: Arc<Q>,
}

// SAFETY: a slot may be sent, and no other part has this one. The whole is shared by parts on several
// threads, and dropped or given back by the last one: so it has to be `Sync` and `Send`.
unsafe impl<Q: Send + Sync> Send for Part<Q> {}

impl<Q: HasQueue> Part<Q> {
    /// A part for each slot, in their order.
    pub(crate) fn all_of(whole: Q) -> Vec<Part<Q>> {
        let whole = Arc::new(whole);
        let part = |(number, slot)| Part {
            slot,
            number,
            whole: Arc::clone(&whole),
        };
        (0..).zip(whole.queue().places()).map(part).collect()
    }
}

impl<Q> Part<Q> {
    pub(crate) fn number(&self) -> u32 {
        self.number
    }

    /// The member as one that borrows this part.
    pub(crate) fn lend(&mut self) -> Member<'_> {
        // SAFETY: the whole is there as long as this part is, and its slots stay where they are. The slot
        // is this part's alone, which is borrowed by `&mut` as long as the member is there.
        let slot = unsafe { self.slot.as_mut() };
        Member::of(slot, self.number)
    }

    pub(crate) fn inserted_count(&self) -> u64 {
        inserted_by(self.slot())
    }

    pub(crate) fn deleted_count(&self) -> u64 {
        deleted_by(self.slot())
    }

    fn slot(&self) -> &Slot {
        // SAFETY: as in `lend`. A part is not `Sync`, so this is no way by which two threads have a slot.
        unsafe { self.slot.as_ref() }
    }

    /// The whole, where no other part is there any more.
    pub(crate) fn into_whole(self) -> Option<Q> {
        Arc::into_inner(self.whole)
    }
}

/// One member of a queue that its members own together: what [`Queue::into_members`] gives.
///
/// It borrows nothing, so it may be sent to any thread. Its calls are those of a [`Member`]. The queue is
/// dropped with the last of its members, unless that is given back by
/// [`into_queue`](OwnedMember::into_queue).
///
/// ```
/// # fn main() -> Result<(), Box<dyn std::error::Error>> {
/// let mut threads = Vec::new();
/// for mut member in klsm::Queue::new(4)?.into_members() {
///     threads.push(std::thread::spawn(move || {
///         for i in 0..1_000 {
///             member.insert(i, 7).expect("there is room");
///         }
///         member.into_queue()
///     }));
/// }
/// let queues = threads.into_iter().filter_map(|thread| thread.join().expect("no thread panics"));
/// // There is one, from the member that was given back last.
/// for queue in queues {
///     assert_eq!(queue.finish()?.left.len(), 4_000);
/// }
/// # Ok(())
/// # }
/// ```
pub struct OwnedMember(Part<Queue>);

impl OwnedMember {
    pub(crate) fn all_of(queue: Queue) -> Vec<OwnedMember> {
        Part::all_of(queue).into_iter().map(OwnedMember).collect()
    }

    /// The member as one that borrows this one, for a function that takes such a one.
    pub fn lend(&mut self) -> Member<'_> {
        self.0.lend()
    }

    /// The member's number, from 0 to T-1: the owner of the items that it inserts.
    #[must_use]
    pub fn number(&self) -> u32 {
        self.0.number()
    }

    /// Inserts a key with a load, and waits while a lock that it needs is held: [`Member::insert`].
    ///
    /// # Errors
    ///
    /// Those of [`Member::insert`].
    pub fn insert(&mut self, key: u64, load: u64) -> Result<(), InsertError> {
        self.lend().insert(key, load)
    }

    /// Inserts a key with a load, and never blocks: [`Member::try_insert`].
    ///
    /// # Errors
    ///
    /// Those of [`Member::try_insert`].
    pub fn try_insert(&mut self, key: u64, load: u64) -> Result<(), TryInsertError> {
        self.lend().try_insert(key, load)
    }

    /// Deletes a small item and returns it, and waits while a lock that it needs is held:
    /// [`Member::delete_min`].
    #[must_use = "the item was deleted"]
    pub fn delete_min(&mut self) -> Option<Item> {
        self.lend().delete_min()
    }

    /// Deletes a small item and returns it, and never blocks: [`Member::try_delete_min`].
    ///
    /// # Errors
    ///
    /// Those of [`Member::try_delete_min`].
    #[must_use = "the item was deleted"]
    pub fn try_delete_min(&mut self) -> Result<Option<Item>, Busy> {
        self.lend().try_delete_min()
    }

    /// Deletes a small item alone, and waits while a lock that it needs is held: [`Member::delete_min_alone`].
    #[must_use = "the item was deleted"]
    pub fn delete_min_alone(&mut self) -> Option<Item> {
        self.lend().delete_min_alone()
    }

    /// Deletes a small item alone, and never blocks: [`Member::try_delete_min_alone`].
    ///
    /// # Errors
    ///
    /// Those of [`Member::try_delete_min`].
    #[must_use = "the item was deleted"]
    pub fn try_delete_min_alone(&mut self) -> Result<Option<Item>, Busy> {
        self.lend().try_delete_min_alone()
    }

    /// Moves all items of its own part to the part that all share, and waits while a lock that it needs is held:
    /// [`Member::share`].
    ///
    /// # Errors
    ///
    /// Those of [`Member::share`].
    pub fn share(&mut self) -> Result<usize, ShareError> {
        self.lend().share()
    }

    /// Moves all items of its own part to the part that all share, and never blocks: [`Member::try_share`].
    ///
    /// # Errors
    ///
    /// Those of [`Member::try_share`].
    pub fn try_share(&mut self) -> Result<usize, TryShareError> {
        self.lend().try_share()
    }

    /// The smallest key of all items that live and of those that members work at, and how many live; waits while a lock
    /// is held: [`Member::bound`].
    #[must_use]
    pub fn bound(&mut self) -> Bound {
        self.lend().bound()
    }

    /// The same, and never blocks: [`Member::try_bound`].
    ///
    /// # Errors
    ///
    /// Those of [`Member::try_bound`].
    pub fn try_bound(&mut self) -> Result<Bound, Busy> {
        self.lend().try_bound()
    }

    /// Has done with the item that it deleted last; waits while its lock is held: [`Member::rest`].
    pub fn rest(&mut self) {
        self.lend().rest();
    }

    /// The same, and never blocks: [`Member::try_rest`].
    ///
    /// # Errors
    ///
    /// Those of [`Member::try_rest`].
    pub fn try_rest(&mut self) -> Result<(), Busy> {
        self.lend().try_rest()
    }

    /// The front, the key of the smallest shared item: [`Member::front`].
    #[must_use]
    pub fn front(&mut self) -> u64 {
        self.lend().front()
    }

    /// How many insertions the member has made. It takes some nanoseconds and no lock.
    #[must_use]
    pub fn inserted_count(&self) -> u64 {
        self.0.inserted_count()
    }

    /// How many items the member has deleted. It takes some nanoseconds and no lock.
    #[must_use]
    pub fn deleted_count(&self) -> u64 {
        self.0.deleted_count()
    }

    /// Gives the member back. The last one that is given back gets the queue, and the others `None`.
    ///
    /// Where all members are given back, exactly one gets the queue, whichever threads do it at once.
    /// Where one is dropped after all others were given back, the queue is dropped with it.
    #[must_use = "the queue is dropped with what is in it"]
    pub fn into_queue(self) -> Option<Queue> {
        self.0.into_whole()
    }
}

impl Insert for OwnedMember {
    type Load = u64;
    type Error = InsertError;

    fn insert(&mut self, key: u64, load: u64) -> Result<(), InsertError> {
        OwnedMember::insert(self, key, load)
    }
}

impl DeleteMin for OwnedMember {
    type Item = Item;

    fn delete_min(&mut self) -> Option<Item> {
        OwnedMember::delete_min(self)
    }
}

impl fmt::Debug for OwnedMember {
    fn fmt(&self, to: &mut fmt::Formatter<'_>) -> fmt::Result {
        to.debug_struct("OwnedMember")
            .field("number", &self.number())
            .field("inserted", &self.inserted_count())
            .field("deleted", &self.deleted_count())
            .finish()
    }
}
