//! A member of a typed queue.

use super::payload::{load_of, payload_of};
use super::{TypedItem, TypedQueue};
use crate::errors::{Busy, InsertError, Refused, ShareError, TryInsertError, TryShareError};
use crate::member::{Member, Members, ALONE, REFILLING};
use crate::sys::{Bound, Load};
use crate::work::{DeleteMin, Insert};
use std::fmt;
use std::iter::FusedIterator;
use std::marker::PhantomData;

/// One member of a [`TypedQueue`], which it borrows: a [`Member`] whose items carry payloads.
pub struct TypedMember<'queue, T> {
    // A member of a queue whose loads stand for payloads of `T`.
    member: Member<'queue>,
    payloads: PhantomData<&'queue mut TypedQueue<T>>,
}

impl<'queue, T> TypedMember<'queue, T> {
    /// The typed member over one of a typed queue of this `T`.
    pub(super) fn over(member: Member<'queue>) -> Self {
        TypedMember {
            member,
            payloads: PhantomData,
        }
    }

    /// The member's number, from 0 to T-1: the owner of the items that it inserts.
    #[must_use]
    pub fn number(&self) -> u32 {
        self.member.number()
    }

    /// Inserts a key with a payload, and waits while a lock that it needs is held: [`Member::insert`]. It
    /// takes memory for a payload of more than eight bytes.
    ///
    /// # Errors
    ///
    /// Those of [`Member::insert`], each with the payload.
    pub fn insert(&mut self, key: u64, payload: T) -> Result<(), Refused<T, InsertError>> {
        let insert = |member: &mut Member<'_>, load| member.insert_load(key, load);
        self.insertion(payload, InsertError::NoMemory, insert)
    }

    /// Inserts a key with a payload, and never blocks: [`Member::try_insert`]. It takes memory for a
    /// payload of more than eight bytes.
    ///
    /// # Errors
    ///
    /// Those of [`Member::try_insert`], each with the payload.
    pub fn try_insert(&mut self, key: u64, payload: T) -> Result<(), Refused<T, TryInsertError>> {
        let insert = |member: &mut Member<'_>, load| member.try_insert_load(key, load);
        self.insertion(payload, TryInsertError::NoMemory, insert)
    }

    /// Inserts a payload by a call, which gets the load that stands for it.
    fn insertion<Why>(
        &mut self,
        payload: T,
        no_memory: Why,
        insert: impl FnOnce(&mut Member<'queue>, Load) -> Result<(), Why>,
    ) -> Result<(), Refused<T, Why>> {
        let load = load_of(payload).map_err(|payload| Refused {
            payload,
            why: no_memory,
        })?;
        insert(&mut self.member, load).map_err(|why| {
            // SAFETY: it was not inserted, so no one else has it.
            let payload = unsafe { payload_of(load) };
            Refused { payload, why }
        })
    }

    /// Deletes a small item and returns it, and waits while a lock that it needs is held:
    /// [`Member::delete_min`], which says what `None` means.
    #[must_use = "the item was deleted"]
    pub fn delete_min(&mut self) -> Option<TypedItem<T>> {
        let item = self.member.delete_raw::<REFILLING>()?;
        // SAFETY: the member's queue is a typed one of this `T`, and the item is given here alone.
        Some(unsafe { TypedItem::of(item) })
    }

    /// Deletes a small item and returns it, and never blocks: [`Member::try_delete_min`].
    ///
    /// # Errors
    ///
    /// Those of [`Member::try_delete_min`].
    #[must_use = "the item was deleted"]
    pub fn try_delete_min(&mut self) -> Result<Option<TypedItem<T>>, Busy> {
        let item = self.member.try_delete_raw::<REFILLING>()?;
        // SAFETY: as in `delete_min`.
        Ok(item.map(|item| unsafe { TypedItem::of(item) }))
    }

    /// Deletes a small item alone, and waits while a lock that it needs is held: [`Member::delete_min_alone`].
    #[must_use = "the item was deleted"]
    pub fn delete_min_alone(&mut self) -> Option<TypedItem<T>> {
        let item = self.member.delete_raw::<ALONE>()?;
        // SAFETY: as in `delete_min`.
        Some(unsafe { TypedItem::of(item) })
    }

    /// Deletes a small item alone, and never blocks: [`Member::try_delete_min_alone`].
    ///
    /// # Errors
    ///
    /// Those of [`Member::try_delete_min`].
    #[must_use = "the item was deleted"]
    pub fn try_delete_min_alone(&mut self) -> Result<Option<TypedItem<T>>, Busy> {
        let item = self.member.try_delete_raw::<ALONE>()?;
        // SAFETY: as in `delete_min`.
        Ok(item.map(|item| unsafe { TypedItem::of(item) }))
    }

    /// Moves all items of its own part to the part that all share, and waits while a lock that it needs is held:
    /// [`Member::share`]. Their payloads stay where they are.
    ///
    /// # Errors
    ///
    /// Those of [`Member::share`].
    pub fn share(&mut self) -> Result<usize, ShareError> {
        self.member.share()
    }

    /// Moves all items of its own part to the part that all share, and never blocks: [`Member::try_share`].
    ///
    /// # Errors
    ///
    /// Those of [`Member::try_share`].
    pub fn try_share(&mut self) -> Result<usize, TryShareError> {
        self.member.try_share()
    }

    /// The smallest key of all items that live and of those that members work at, and how many live; waits while a lock
    /// is held: [`Member::bound`].
    #[must_use]
    pub fn bound(&mut self) -> Bound {
        self.member.bound()
    }

    /// The same, and never blocks: [`Member::try_bound`].
    ///
    /// # Errors
    ///
    /// Those of [`Member::try_bound`].
    pub fn try_bound(&mut self) -> Result<Bound, Busy> {
        self.member.try_bound()
    }

    /// Has done with the item that it deleted last; waits while its lock is held: [`Member::rest`].
    pub fn rest(&mut self) {
        self.member.rest();
    }

    /// The same, and never blocks: [`Member::try_rest`].
    ///
    /// # Errors
    ///
    /// Those of [`Member::try_rest`].
    pub fn try_rest(&mut self) -> Result<(), Busy> {
        self.member.try_rest()
    }

    /// The front, the key of the least shared item: [`Member::front`].
    #[must_use]
    pub fn front(&mut self) -> u64 {
        self.member.front()
    }

    /// How many insertions the member has made. It takes some nanoseconds and no lock.
    #[must_use]
    pub fn inserted_count(&self) -> u64 {
        self.member.inserted_count()
    }

    /// How many items the member has deleted. It takes some nanoseconds and no lock.
    #[must_use]
    pub fn deleted_count(&self) -> u64 {
        self.member.deleted_count()
    }
}

impl<T> Insert for TypedMember<'_, T> {
    type Load = T;
    type Error = Refused<T, InsertError>;

    fn insert(&mut self, key: u64, payload: T) -> Result<(), Refused<T, InsertError>> {
        TypedMember::insert(self, key, payload)
    }
}

impl<T> DeleteMin for TypedMember<'_, T> {
    type Item = TypedItem<T>;

    fn delete_min(&mut self) -> Option<TypedItem<T>> {
        TypedMember::delete_min(self)
    }
}

impl<T> fmt::Debug for TypedMember<'_, T> {
    fn fmt(&self, to: &mut fmt::Formatter<'_>) -> fmt::Result {
        to.debug_tuple("TypedMember").field(&self.member).finish()
    }
}

/// The members of a typed queue, in the order of their numbers: what [`TypedQueue::members`] gives.
pub struct TypedMembers<'queue, T> {
    members: Members<'queue>,
    payloads: PhantomData<&'queue mut TypedQueue<T>>,
}

impl<'queue, T> TypedMembers<'queue, T> {
    pub(super) fn of(typed: &'queue mut TypedQueue<T>) -> Self {
        TypedMembers {
            members: typed.queue.members(),
            payloads: PhantomData,
        }
    }
}

impl<'queue, T> Iterator for TypedMembers<'queue, T> {
    type Item = TypedMember<'queue, T>;

    fn next(&mut self) -> Option<Self::Item> {
        self.members.next().map(TypedMember::over)
    }

    fn size_hint(&self) -> (usize, Option<usize>) {
        self.members.size_hint()
    }
}

impl<T> DoubleEndedIterator for TypedMembers<'_, T> {
    fn next_back(&mut self) -> Option<Self::Item> {
        self.members.next_back().map(TypedMember::over)
    }
}

impl<T> ExactSizeIterator for TypedMembers<'_, T> {}

impl<T> FusedIterator for TypedMembers<'_, T> {}

impl<T> fmt::Debug for TypedMembers<'_, T> {
    fn fmt(&self, to: &mut fmt::Formatter<'_>) -> fmt::Result {
        to.debug_tuple("TypedMembers").field(&self.members).finish()
    }
}
