//! The interface of the library as C sees it: types, their layout, and the functions.

use std::array::from_fn;
use std::cell::UnsafeCell;
use std::cmp::Ordering;
use std::ffi::c_void;
use std::mem::{align_of, offset_of, size_of, MaybeUninit};
use std::ptr::{null_mut, NonNull};

#[cfg(not(all(target_arch = "x86_64", target_os = "linux")))]
compile_error!("libklsm.a is for Linux on x86-64");

/// The version of the interface that this file describes.
pub(crate) const ABI: u32 = 2;

/// The most members of a queue.
pub(crate) const MOST_MEMBERS: usize = 64;

/// What the functions answer.
pub(crate) mod code {
    pub(crate) const OK: i32 = 0;
    pub(crate) const NOTHING: i32 = 1;
    pub(crate) const BUSY: i32 = 2;
    pub(crate) const FULL: i32 = 3;
    pub(crate) const NO_MEMORY: i32 = 4;
    pub(crate) const SPENT: i32 = 5;
    pub(crate) const BAD_COUNT: i32 = 8;
    pub(crate) const BAD_K: i32 = 9;
    pub(crate) const SHARED: i32 = 11;
}

/// One member's slot, on two cache lines, since processors fetch two at once.
///
/// The library writes to it in each call, also where it only reads a count, so that a tool which looks for
/// races sees two calls at once. So all of it is in a cell.
#[repr(C, align(128))]
pub(crate) struct Slot(UnsafeCell<Fields>);

#[repr(C)]
struct Fields {
    at: *mut c_void,
    live: u64,
    room: [u64; 14],
}

// SAFETY: a slot that is open has its member's state, which one thread may pass to another: that it
// is `Send` is proved with the library. It is not `Sync`: one call at a time.
unsafe impl Send for Slot {}

impl Slot {
    fn closed() -> Slot {
        Slot(UnsafeCell::new(Fields {
            at: null_mut(),
            live: 0,
            room: [0; 14],
        }))
    }

    /// Where the slot is. All of it is in a cell, so who has it alone may write there.
    pub(crate) fn place(&self) -> NonNull<Slot> {
        NonNull::from(&self.0).cast()
    }
}

/// The memory of a queue. All bytes 0 is a queue that is closed.
#[repr(C)]
pub(crate) struct Slots {
    pub(crate) members: [Slot; MOST_MEMBERS],
}

impl Slots {
    pub(crate) fn closed() -> Slots {
        Slots {
            members: from_fn(|_| Slot::closed()),
        }
    }
}

/// What a queue holds. Items are ordered by key, then owner, then number, and no two items of one
/// queue have the same owner and number.
#[repr(C)]
#[derive(Clone, Copy, Debug, Default, PartialEq, Eq, Hash)]
pub struct Item {
    /// What the items are ordered by first: the smallest key is the most urgent.
    pub key: u64,
    /// What the item carries for its user. The queue never reads it.
    pub load: u64,
    /// How many insertions the owner had made before this one.
    pub number: u64,
    /// The number of the member that inserted it.
    pub owner: u32,
}

/// What is open in a queue at one moment: what lives in all parts together, and what members work at. [`Member::bound`]
/// gives it.
///
/// [`Member::bound`]: crate::Member::bound
#[repr(C)]
#[derive(Clone, Copy, Debug, Default, PartialEq, Eq, Hash)]
pub struct Bound {
    /// The smallest key of all items that live, and `u64::MAX` where none lives.
    pub queue: u64,
    /// The smallest key of the items that members work at, and `u64::MAX` where none works: of those that each of them
    /// deleted last, until a deletion finds nothing or it rests.
    pub work: u64,
    /// How many items live.
    pub items: u64,
}

/// A load as the library carries it: eight bytes that it never reads. So they may be those of a payload, some of which
/// were perhaps never written.
pub(crate) type Load = MaybeUninit<u64>;

/// What a deletion writes: an [`Item`] whose load may be a payload.
#[repr(C)]
pub(crate) struct RawItem {
    pub(crate) key: u64,
    pub(crate) load: Load,
    pub(crate) number: u64,
    pub(crate) owner: u32,
}

impl RawItem {
    pub(crate) const fn new() -> RawItem {
        RawItem {
            key: 0,
            load: Load::new(0),
            number: 0,
            owner: 0,
        }
    }

    /// # Safety
    ///
    /// The item's load was inserted as a number.
    pub(crate) unsafe fn with_number(self) -> Item {
        Item {
            key: self.key,
            // SAFETY: as the caller says.
            load: unsafe { self.load.assume_init() },
            number: self.number,
            owner: self.owner,
        }
    }
}

impl Ord for Item {
    fn cmp(&self, other: &Self) -> Ordering {
        let of = |item: &Item| (item.key, item.owner, item.number, item.load);
        of(self).cmp(&of(other))
    }
}

impl PartialOrd for Item {
    fn partial_cmp(&self, other: &Self) -> Option<Ordering> {
        Some(self.cmp(other))
    }
}

/// The totals of a queue that was closed.
#[repr(C)]
#[derive(Default)]
pub(crate) struct Totals {
    pub(crate) inserted: u64,
    pub(crate) deleted: u64,
    pub(crate) left: u64,
}

const _: () = {
    assert!(size_of::<usize>() == 8);
    assert!(size_of::<Slot>() == 128 && align_of::<Slot>() == 128);
    assert!(size_of::<Fields>() == 128 && offset_of!(Slot, 0) == 0);
    assert!(offset_of!(Fields, at) == 0 && offset_of!(Fields, live) == 8);
    assert!(offset_of!(Fields, room) == 16);
    assert!(size_of::<Slots>() == 8192 && align_of::<Slots>() == 128);
    assert!(size_of::<Item>() == 32 && align_of::<Item>() == 8);
    assert!(offset_of!(Item, key) == 0 && offset_of!(Item, load) == 8);
    assert!(offset_of!(Item, number) == 16 && offset_of!(Item, owner) == 24);
    assert!(size_of::<RawItem>() == 32 && align_of::<RawItem>() == 8);
    assert!(offset_of!(RawItem, key) == 0 && offset_of!(RawItem, load) == 8);
    assert!(offset_of!(RawItem, number) == 16 && offset_of!(RawItem, owner) == 24);
    assert!(size_of::<Bound>() == 24 && align_of::<Bound>() == 8);
    assert!(offset_of!(Bound, queue) == 0 && offset_of!(Bound, work) == 8);
    assert!(offset_of!(Bound, items) == 16);
    assert!(size_of::<Totals>() == 24 && align_of::<Totals>() == 8);
    assert!(offset_of!(Totals, inserted) == 0 && offset_of!(Totals, deleted) == 8);
    assert!(offset_of!(Totals, left) == 16);
};

extern "C" {
    pub(crate) fn klsm_abi() -> u32;
    pub(crate) fn klsm_open_with_balance(
        queue: *mut Slots,
        threads: usize,
        k: usize,
        pick: u32,
        seed: u64,
        refill: usize,
        balance: u32,
    ) -> i32;
    pub(crate) fn klsm_close_into(
        queue: *mut Slots,
        account: *mut Totals,
        left: *mut Item,
        room: usize,
    ) -> i32;
    pub(crate) fn klsm_drop(queue: *mut Slots);
    pub(crate) fn klsm_try_insert(member: *mut Slot, key: u64, load: Load) -> i32;
    pub(crate) fn klsm_try_delete_min(member: *mut Slot, item: *mut RawItem) -> i32;
    pub(crate) fn klsm_try_delete_min_alone(member: *mut Slot, item: *mut RawItem) -> i32;
    pub(crate) fn klsm_try_share(member: *mut Slot, moved: *mut u64) -> i32;
    pub(crate) fn klsm_try_bound(member: *mut Slot, bound: *mut Bound) -> i32;
    pub(crate) fn klsm_try_rest(member: *mut Slot) -> i32;
    pub(crate) fn klsm_front(member: *mut Slot) -> u64;
    pub(crate) fn klsm_inserted(member: *const Slot) -> u64;
    pub(crate) fn klsm_deleted(member: *const Slot) -> u64;
}

/// Ends a call that got a code which the library's contract leaves no room for.
#[cold]
pub(crate) fn unexpected(call: &str, code: i32) -> ! {
    panic!("{call} answered code {code}, which it never does: is libklsm.a of this version?")
}
