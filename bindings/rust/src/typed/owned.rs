//! A member that owns a typed queue together with the others.

use super::{TypedItem, TypedMember, TypedQueue};
use crate::errors::{Busy, InsertError, Refused, ShareError, TryInsertError, TryShareError};
use crate::owned::Part;
use crate::sys::Bound;
use crate::work::{DeleteMin, Insert};
use std::fmt;

/// One member of a typed queue that its members own together: what [`TypedQueue::into_members`] gives.
///
/// It borrows nothing, so it may be sent to any thread. Its calls are those of a [`TypedMember`]. The queue
/// is dropped with the last of its members, and the payloads that are left with it, unless that member is
/// given back by [`into_queue`](OwnedTypedMember::into_queue).
///
/// ```
/// # fn main() -> Result<(), Box<dyn std::error::Error>> {
/// type Task = Box<dyn FnOnce() -> u64 + Send>;
/// let mut members = klsm::TypedQueue::<Task>::new(2)?.into_members();
/// members[0].insert(5, Box::new(|| 50))?;
/// let threads = members.into_iter().map(|mut member| {
///     std::thread::spawn(move || member.delete_min().map(|item| (item.payload)()))
/// });
/// let threads: Vec<_> = threads.collect();
/// let done = threads.into_iter().filter_map(|thread| thread.join().expect("no thread panics"));
/// assert_eq!(done.sum::<u64>(), 50);
/// # Ok(())
/// # }
/// ```
pub struct OwnedTypedMember<T>(Part<TypedQueue<T>>);

impl<T> OwnedTypedMember<T> {
    pub(super) fn all_of(queue: TypedQueue<T>) -> Vec<OwnedTypedMember<T>> {
        let parts = Part::all_of(queue).into_iter();
        parts.map(OwnedTypedMember).collect()
    }

    /// The member as one that borrows this one, for a function that takes such a one.
    pub fn lend(&mut self) -> TypedMember<'_, T> {
        TypedMember::over(self.0.lend())
    }

    /// The member's number, from 0 to T-1: the owner of the items that it inserts.
    #[must_use]
    pub fn number(&self) -> u32 {
        self.0.number()
    }

    /// Inserts a key with a payload, and waits while a lock that it needs is held:
    /// [`TypedMember::insert`].
    ///
    /// # Errors
    ///
    /// Those of [`TypedMember::insert`].
    pub fn insert(&mut self, key: u64, payload: T) -> Result<(), Refused<T, InsertError>> {
        self.lend().insert(key, payload)
    }

    /// Inserts a key with a payload, and never blocks: [`TypedMember::try_insert`].
    ///
    /// # Errors
    ///
    /// Those of [`TypedMember::try_insert`].
    pub fn try_insert(&mut self, key: u64, payload: T) -> Result<(), Refused<T, TryInsertError>> {
        self.lend().try_insert(key, payload)
    }

    /// Deletes a small item and returns it, and waits while a lock that it needs is held:
    /// [`TypedMember::delete_min`].
    #[must_use = "the item was deleted"]
    pub fn delete_min(&mut self) -> Option<TypedItem<T>> {
        self.lend().delete_min()
    }

    /// Deletes a small item and returns it, and never blocks: [`TypedMember::try_delete_min`].
    ///
    /// # Errors
    ///
    /// Those of [`TypedMember::try_delete_min`].
    #[must_use = "the item was deleted"]
    pub fn try_delete_min(&mut self) -> Result<Option<TypedItem<T>>, Busy> {
        self.lend().try_delete_min()
    }

    /// Deletes a small item alone, and waits while a lock that it needs is held:
    /// [`TypedMember::delete_min_alone`].
    #[must_use = "the item was deleted"]
    pub fn delete_min_alone(&mut self) -> Option<TypedItem<T>> {
        self.lend().delete_min_alone()
    }

    /// Deletes a small item alone, and never blocks: [`TypedMember::try_delete_min_alone`].
    ///
    /// # Errors
    ///
    /// Those of [`TypedMember::try_delete_min`].
    #[must_use = "the item was deleted"]
    pub fn try_delete_min_alone(&mut self) -> Result<Option<TypedItem<T>>, Busy> {
        self.lend().try_delete_min_alone()
    }

    /// Moves all items of its own part to the part that all share, and waits while a lock that it needs is held:
    /// [`TypedMember::share`].
    ///
    /// # Errors
    ///
    /// Those of [`TypedMember::share`].
    pub fn share(&mut self) -> Result<usize, ShareError> {
        self.lend().share()
    }

    /// Moves all items of its own part to the part that all share, and never blocks: [`TypedMember::try_share`].
    ///
    /// # Errors
    ///
    /// Those of [`TypedMember::try_share`].
    pub fn try_share(&mut self) -> Result<usize, TryShareError> {
        self.lend().try_share()
    }

    /// The smallest key of all items that live and of those that members work at, and how many live; waits while a lock
    /// is held: [`Member::bound`](crate::Member::bound).
    #[must_use]
    pub fn bound(&mut self) -> Bound {
        self.lend().bound()
    }

    /// The same, and never blocks: [`Member::try_bound`](crate::Member::try_bound).
    ///
    /// # Errors
    ///
    /// Those of [`Member::try_bound`](crate::Member::try_bound).
    pub fn try_bound(&mut self) -> Result<Bound, Busy> {
        self.lend().try_bound()
    }

    /// Has done with the item that it deleted last; waits while its lock is held:
    /// [`Member::rest`](crate::Member::rest).
    pub fn rest(&mut self) {
        self.lend().rest();
    }

    /// The same, and never blocks: [`Member::try_rest`](crate::Member::try_rest).
    ///
    /// # Errors
    ///
    /// Those of [`Member::try_rest`](crate::Member::try_rest).
    pub fn try_rest(&mut self) -> Result<(), Busy> {
        self.lend().try_rest()
    }

    /// The front, the key of the least shared item: [`Member::front`](crate::Member::front).
    #[must_use]
    pub fn front(&mut self) -> u64 {
        self.0.lend().front()
    }

    /// How many insertions the member has made. It takes some nanoseconds and no lock.
    #[must_use]
    pub fn inserted_count(&self) -> u64 {
        self.0.inserted_count()
    }

    /// How many items the member has deleted. It takes some nanoseconds and no lock.
    #[must_use]
    pub fn deleted_count(&self) -> u64 {
        self.0.deleted_count()
    }

    /// Gives the member back. The last one that is given back gets the queue, and the others `None`, as
    /// [`OwnedMember::into_queue`](crate::OwnedMember::into_queue) says.
    #[must_use = "the queue is dropped with what is in it"]
    pub fn into_queue(self) -> Option<TypedQueue<T>> {
        self.0.into_whole()
    }
}

impl<T> Insert for OwnedTypedMember<T> {
    type Load = T;
    type Error = Refused<T, InsertError>;

    fn insert(&mut self, key: u64, payload: T) -> Result<(), Refused<T, InsertError>> {
        OwnedTypedMember::insert(self, key, payload)
    }
}

impl<T> DeleteMin for OwnedTypedMember<T> {
    type Item = TypedItem<T>;

    fn delete_min(&mut self) -> Option<TypedItem<T>> {
        OwnedTypedMember::delete_min(self)
    }
}

impl<T> fmt::Debug for OwnedTypedMember<T> {
    fn fmt(&self, to: &mut fmt::Formatter<'_>) -> fmt::Result {
        to.debug_struct("OwnedTypedMember")
            .field("number", &self.number())
            .field("inserted", &self.inserted_count())
            .field("deleted", &self.deleted_count())
            .finish()
    }
}
