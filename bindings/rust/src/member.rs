//! A member: what one thread inserts and deletes by.

use crate::errors::{Busy, InsertError, ShareError, TryInsertError, TryShareError};
use crate::pause::until_free;
use crate::sys::{self, code, Bound, Item, Load, RawItem, Slot};
use crate::work::{DeleteMin, Insert};
use std::fmt;
use std::iter::{Enumerate, FusedIterator};
use std::slice::IterMut;

/// What a deletion is that moves items home behind it, as the queue's refill says, and what one is that does not.
pub(crate) const REFILLING: bool = false;
pub(crate) const ALONE: bool = true;

/// One member of a [`Queue`](crate::Queue), which it borrows. Send each to a thread of its own.
///
/// An insertion needs the member's own lock, and the shared one where the member already keeps k
/// items. A deletion needs the own lock, and the shared one unless the smallest key that the member
/// keeps is below all shared ones. A call that waits for a lock backs off for some pauses between
/// two tries, and after some tries lets other threads run. How long it waits is not promised.
pub struct Member<'queue> {
    slot: &'queue mut Slot,
    number: u32,
}

impl<'queue> Member<'queue> {
    pub(crate) fn of(slot: &'queue mut Slot, number: u32) -> Self {
        Member { slot, number }
    }

    /// The member's number, from 0 to T-1: the owner of the items that it inserts.
    #[must_use]
    pub fn number(&self) -> u32 {
        self.number
    }

    /// Inserts a key with a load, and waits while a lock that it needs is held.
    ///
    /// It takes memory only where items move to the shared part.
    ///
    /// # Errors
    ///
    /// The member has made all its insertions, the shared part is full, or out of memory.
    /// Nothing has changed then.
    pub fn insert(&mut self, key: u64, load: u64) -> Result<(), InsertError> {
        self.insert_load(key, Load::new(load))
    }

    pub(crate) fn insert_load(&mut self, key: u64, load: Load) -> Result<(), InsertError> {
        match until_free(|| self.insertion(key, load)) {
            code::OK => Ok(()),
            code::SPENT => Err(InsertError::Spent),
            code::FULL => Err(InsertError::Full),
            code::NO_MEMORY => Err(InsertError::NoMemory),
            other => sys::unexpected("klsm_try_insert", other),
        }
    }

    /// Inserts a key with a load, and never blocks.
    ///
    /// It takes memory only where items move to the shared part.
    ///
    /// # Errors
    ///
    /// Those of [`insert`](Member::insert), and [`TryInsertError::Busy`] where a lock that it needs is
    /// held. No part of the queue has changed then.
    pub fn try_insert(&mut self, key: u64, load: u64) -> Result<(), TryInsertError> {
        self.try_insert_load(key, Load::new(load))
    }

    pub(crate) fn try_insert_load(&mut self, key: u64, load: Load) -> Result<(), TryInsertError> {
        match self.insertion(key, load) {
            code::OK => Ok(()),
            code::SPENT => Err(TryInsertError::Spent),
            code::BUSY => Err(TryInsertError::Busy),
            code::FULL => Err(TryInsertError::Full),
            code::NO_MEMORY => Err(TryInsertError::NoMemory),
            other => sys::unexpected("klsm_try_insert", other),
        }
    }

    /// Deletes a small item and returns it, and waits while a lock that it needs is held.
    ///
    /// At most T·k smaller items are in the queue at that moment, and none of these was inserted by
    /// this member and lies in its own or the shared part. It takes no memory.
    ///
    /// `None`: the member's own part, the shared part and each other part that could be looked into
    /// were empty. At most (T-1)·k items were in the queue then. They may be more a moment later, and
    /// some may be with a member that inserts right now: count open work apart from the queue, as
    /// [`Work`](crate::Work) does, to tell when all is done.
    #[must_use = "the item was deleted"]
    pub fn delete_min(&mut self) -> Option<Item> {
        // SAFETY: the loads of this queue are numbers: those of one of payloads are deleted by `delete_raw`.
        self.delete_raw::<REFILLING>()
            .map(|item| unsafe { item.with_number() })
    }

    pub(crate) fn delete_raw<const HOW: bool>(&mut self) -> Option<RawItem> {
        let mut item = RawItem::new();
        match until_free(|| self.deletion::<HOW>(&mut item)) {
            code::OK => Some(item),
            code::NOTHING => None,
            other => sys::unexpected(name_of_deletion(HOW), other),
        }
    }

    /// Deletes a small item and returns it, as [`delete_min`](Member::delete_min) does, and never blocks.
    ///
    /// # Errors
    ///
    /// [`Busy`] where a lock that it needs is held. No part of the queue has changed then.
    #[must_use = "the item was deleted"]
    pub fn try_delete_min(&mut self) -> Result<Option<Item>, Busy> {
        // SAFETY: as in `delete_min`.
        let item = self.try_delete_raw::<REFILLING>()?;
        Ok(item.map(|item| unsafe { item.with_number() }))
    }

    pub(crate) fn try_delete_raw<const HOW: bool>(&mut self) -> Result<Option<RawItem>, Busy> {
        let mut item = RawItem::new();
        match self.deletion::<HOW>(&mut item) {
            code::OK => Ok(Some(item)),
            code::NOTHING => Ok(None),
            code::BUSY => Err(Busy),
            other => sys::unexpected(name_of_deletion(HOW), other),
        }
    }

    /// Deletes a small item and returns it, as [`delete_min`](Member::delete_min) does, but alone: no items move to
    /// the own part behind it, whatever the queue's refill is. For items each of which is worked on for long.
    #[must_use = "the item was deleted"]
    pub fn delete_min_alone(&mut self) -> Option<Item> {
        // SAFETY: as in `delete_min`.
        self.delete_raw::<ALONE>()
            .map(|item| unsafe { item.with_number() })
    }

    /// Deletes a small item alone, as [`delete_min_alone`](Member::delete_min_alone) does, and never blocks.
    ///
    /// # Errors
    ///
    /// Those of [`try_delete_min`](Member::try_delete_min).
    #[must_use = "the item was deleted"]
    pub fn try_delete_min_alone(&mut self) -> Result<Option<Item>, Busy> {
        // SAFETY: as in `delete_min`.
        let item = self.try_delete_raw::<ALONE>()?;
        Ok(item.map(|item| unsafe { item.with_number() }))
    }

    /// Moves all items of the member's own part to the part that all share, where all find them, and returns how
    /// many moved. It waits while a lock that it needs is held.
    ///
    /// A deletion may have brought more items home than the one that it gave, and others come to these last, as to
    /// those that the member inserted and still keeps. So a thread shares before it works for long, and before it
    /// drops its member. It takes a block of memory where the own part has items.
    ///
    /// ```
    /// # fn main() -> Result<(), Box<dyn std::error::Error>> {
    /// let mut queue = klsm::Queue::new(2)?;
    /// let mut members = queue.members();
    /// let mut member = members.next().ok_or("no member")?;
    /// let mut other = members.next().ok_or("no other member")?;
    /// for key in 1..4 {
    ///     member.insert(key, 0)?;
    /// }
    /// let item = member.delete_min().ok_or("no item")?; // to be worked on for long
    /// assert_eq!((item.key, member.share()?), (1, 2));
    /// assert_eq!(other.delete_min().map(|item| item.key), Some(2));
    /// # Ok(())
    /// # }
    /// ```
    ///
    /// # Errors
    ///
    /// The shared part has no room for all of them, or out of memory. No item has moved then.
    pub fn share(&mut self) -> Result<usize, ShareError> {
        let mut moved = 0;
        match until_free(|| self.sharing(&mut moved)) {
            code::OK => Ok(moved as usize),
            code::FULL => Err(ShareError::Full),
            code::NO_MEMORY => Err(ShareError::NoMemory),
            other => sys::unexpected("klsm_try_share", other),
        }
    }

    /// Moves all items of the member's own part to the part that all share, as [`share`](Member::share) does, and
    /// never blocks.
    ///
    /// # Errors
    ///
    /// Those of [`share`](Member::share), and [`TryShareError::Busy`] where a lock that it needs is held. No item
    /// has moved then.
    pub fn try_share(&mut self) -> Result<usize, TryShareError> {
        let mut moved = 0;
        match self.sharing(&mut moved) {
            code::OK => Ok(moved as usize),
            code::BUSY => Err(TryShareError::Busy),
            code::FULL => Err(TryShareError::Full),
            code::NO_MEMORY => Err(TryShareError::NoMemory),
            other => sys::unexpected("klsm_try_share", other),
        }
    }

    /// The smallest key of all items that live, in all parts together, that of the items that members work at, and how
    /// many live. It waits while a lock is held.
    ///
    /// It needs the locks of all members and the shared one at once, and tries again where one is held: now and then,
    /// and not at each item. There is a moment in the call of which it is exact. A member works at the item that it
    /// deleted last, until a deletion finds nothing or it [rests](Member::rest). Where from then on each insertion is
    /// made by a member that works at an item, with a key that is not less than that item's, nothing that is deleted
    /// later has a key below the smaller one of `queue` and `work`: so a search knows how good its best answer is.
    /// `docs/C-INTERFACE.md` of the repository says more.
    ///
    /// ```
    /// # fn main() -> Result<(), Box<dyn std::error::Error>> {
    /// let mut queue = klsm::Queue::new(2)?;
    /// let mut members = queue.members();
    /// let mut member = members.next().ok_or("no member")?;
    /// let mut other = members.next().ok_or("no other member")?;
    /// other.insert(5, 0)?;
    /// let item = other.delete_min().ok_or("no item")?; // from which two others follow
    /// other.insert(item.key + 2, 0)?;
    /// assert_eq!(member.bound(), klsm::Bound { queue: 7, work: 5, items: 1 });
    /// other.insert(item.key + 1, 0)?;
    /// other.rest();
    /// assert_eq!(member.bound(), klsm::Bound { queue: 6, work: u64::MAX, items: 2 });
    /// # Ok(())
    /// # }
    /// ```
    #[must_use]
    pub fn bound(&mut self) -> Bound {
        let mut bound = Bound::default();
        match until_free(|| self.bounding(&mut bound)) {
            code::OK => bound,
            other => sys::unexpected("klsm_try_bound", other),
        }
    }

    /// The smallest key of all items that live and of those that members work at, and how many live, as
    /// [`bound`](Member::bound), and never blocks.
    ///
    /// # Errors
    ///
    /// [`Busy`] where one of the locks is held.
    pub fn try_bound(&mut self) -> Result<Bound, Busy> {
        let mut bound = Bound::default();
        match self.bounding(&mut bound) {
            code::OK => Ok(bound),
            code::BUSY => Err(Busy),
            other => sys::unexpected("klsm_try_bound", other),
        }
    }

    /// Says that the member has done with the item that it deleted last: it works at none until its next deletion. It
    /// waits while its lock is held.
    ///
    /// A [`bound`](Member::bound) tells it, and nothing else changes. So a thread rests once all is inserted that its
    /// item leads to, where it drops its member, or where its next deletion will be long in coming.
    pub fn rest(&mut self) {
        match until_free(|| self.resting()) {
            code::OK => {}
            other => sys::unexpected("klsm_try_rest", other),
        }
    }

    /// Says that the member has done with the item that it deleted last, as [`rest`](Member::rest), and never blocks.
    ///
    /// # Errors
    ///
    /// [`Busy`] where its lock is held. The member works at its item as before then.
    pub fn try_rest(&mut self) -> Result<(), Busy> {
        match self.resting() {
            code::OK => Ok(()),
            code::BUSY => Err(Busy),
            other => sys::unexpected("klsm_try_rest", other),
        }
    }

    /// The front: the key of the smallest shared item, and `u64::MAX` where no item is shared.
    ///
    /// Items that members keep for themselves may have smaller keys, those of the others at most (T-1)·k, and
    /// a smaller one may be shared right after the call. So it is no bound of what is left. It takes no lock.
    #[must_use]
    pub fn front(&mut self) -> u64 {
        // SAFETY: as in `insertion`.
        unsafe { sys::klsm_front(self.slot) }
    }

    /// How many insertions the member has made. It takes some nanoseconds and no lock.
    #[must_use]
    pub fn inserted_count(&self) -> u64 {
        inserted_by(self.slot)
    }

    /// How many items the member has deleted. It takes some nanoseconds and no lock.
    #[must_use]
    pub fn deleted_count(&self) -> u64 {
        deleted_by(self.slot)
    }

    #[inline]
    fn insertion(&mut self, key: u64, load: Load) -> i32 {
        // SAFETY: the pointer is that of a slot of an open queue, which is as the library left it and
        // does not move while it is borrowed. `&mut` keeps other calls for this slot out.
        unsafe { sys::klsm_try_insert(self.slot, key, load) }
    }

    #[inline]
    fn deletion<const HOW: bool>(&mut self, item: &mut RawItem) -> i32 {
        // SAFETY: as in `insertion`; and `item` is a place for an item outside of the queue.
        unsafe {
            match HOW {
                REFILLING => sys::klsm_try_delete_min(self.slot, item),
                ALONE => sys::klsm_try_delete_min_alone(self.slot, item),
            }
        }
    }

    #[inline]
    fn sharing(&mut self, moved: &mut u64) -> i32 {
        // SAFETY: as in `insertion`; and `moved` is a place for a number outside of the queue.
        unsafe { sys::klsm_try_share(self.slot, moved) }
    }

    #[inline]
    fn bounding(&mut self, bound: &mut Bound) -> i32 {
        // SAFETY: as in `insertion`; and `bound` is a place for a bound outside of the queue.
        unsafe { sys::klsm_try_bound(self.slot, bound) }
    }

    #[inline]
    fn resting(&mut self) -> i32 {
        // SAFETY: as in `insertion`.
        unsafe { sys::klsm_try_rest(self.slot) }
    }
}

fn name_of_deletion(how: bool) -> &'static str {
    match how {
        REFILLING => "klsm_try_delete_min",
        ALONE => "klsm_try_delete_min_alone",
    }
}

impl Insert for Member<'_> {
    type Load = u64;
    type Error = InsertError;

    fn insert(&mut self, key: u64, load: u64) -> Result<(), InsertError> {
        Member::insert(self, key, load)
    }
}

impl DeleteMin for Member<'_> {
    type Item = Item;

    fn delete_min(&mut self) -> Option<Item> {
        Member::delete_min(self)
    }
}

impl fmt::Debug for Member<'_> {
    fn fmt(&self, to: &mut fmt::Formatter<'_>) -> fmt::Result {
        to.debug_struct("Member")
            .field("number", &self.number)
            .field("inserted", &self.inserted_count())
            .field("deleted", &self.deleted_count())
            .finish()
    }
}

pub(crate) fn inserted_by(slot: &Slot) -> u64 {
    // SAFETY: the slot is closed or as the library left it. It is not `Sync` and is borrowed, so no
    // other call for it is made meanwhile. What the library writes there lies in a cell.
    unsafe { sys::klsm_inserted(slot) }
}

pub(crate) fn deleted_by(slot: &Slot) -> u64 {
    // SAFETY: as in `inserted_by`.
    unsafe { sys::klsm_deleted(slot) }
}

/// The members of a queue, in the order of their numbers: what [`Queue::members`] gives.
///
/// [`Queue::members`]: crate::Queue::members
pub struct Members<'queue> {
    slots: Enumerate<IterMut<'queue, Slot>>,
}

impl<'queue> Members<'queue> {
    pub(crate) fn of(slots: &'queue mut [Slot]) -> Self {
        Members {
            slots: slots.iter_mut().enumerate(),
        }
    }
}

fn member_of((number, slot): (usize, &mut Slot)) -> Member<'_> {
    Member::of(slot, number as u32)
}

impl<'queue> Iterator for Members<'queue> {
    type Item = Member<'queue>;

    fn next(&mut self) -> Option<Member<'queue>> {
        self.slots.next().map(member_of)
    }

    fn size_hint(&self) -> (usize, Option<usize>) {
        self.slots.size_hint()
    }
}

impl DoubleEndedIterator for Members<'_> {
    fn next_back(&mut self) -> Option<Self::Item> {
        self.slots.next_back().map(member_of)
    }
}

impl ExactSizeIterator for Members<'_> {}

impl FusedIterator for Members<'_> {}

impl fmt::Debug for Members<'_> {
    fn fmt(&self, to: &mut fmt::Formatter<'_>) -> fmt::Result {
        to.debug_struct("Members")
            .field("remaining", &self.slots.len())
            .finish()
    }
}
