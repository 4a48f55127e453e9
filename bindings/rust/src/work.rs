//! Open work, counted, so that a crew of threads ends when all is done and not before.

use crate::errors::End;
use crate::pause::Pause;
use crate::sys::MOST_MEMBERS;
use std::cell::Cell;
use std::fmt;
use std::mem;
use std::ops::{Deref, DerefMut};
use std::ptr;
use std::sync::atomic::Ordering::{Acquire, Relaxed, Release};
use std::sync::atomic::{AtomicBool, AtomicU64, AtomicUsize};

/// A count of open work, by which the threads of a crew know when all is done.
///
/// That a deletion finds nothing does not say that a queue is empty, nor does an empty queue say that all
/// is done: the piece that a thread works at may lead to more. So pieces are counted. [`insert`](Work::insert)
/// opens one and inserts its item; [`next`](Work::next) deletes an item, waits for one while work is open, and
/// gives it as a [`Piece`], which closes it. All that follows from a piece is opened before it is closed.
/// Then no work is open only when all is done.
///
/// A piece is [`done`](Piece::done), or else given up when it is dropped, by a return or a panic: nobody waits
/// for it, and [`given_up`](Work::given_up) counts it. [`stop`](Work::stop) ends the crew at once.
///
/// A deletion may have brought more items home than the one that it gave, and the others come to these last. So a
/// thread calls [`share`](crate::Member::share) of its member before it works on a piece for long, and before it leaves
/// while work is open; where it leaves since the crew was stopped, it need not. Where others ask for a
/// [`bound`](crate::Member::bound), it calls [`rest`](crate::Member::rest) before it leaves.
///
/// ```
/// use klsm::{InsertError, Member, Queue, Work};
///
/// // A piece leads to two of half its load. This is what each thread does.
/// fn work_on(work: &Work, mut member: Member<'_>) -> Result<(), InsertError> {
///     while let Ok(piece) = work.next(&mut member) {
///         for _ in 0..piece.load.min(2) {
///             // Where this is refused the piece is given up, and the others go on.
///             work.insert(&mut member, piece.key + 1, piece.load / 2)?;
///         }
///         piece.done();
///     }
///     Ok(())
/// }
///
/// # fn main() -> Result<(), Box<dyn std::error::Error>> {
/// let mut queue = Queue::new(4)?;
/// let work = Work::new();
/// for mut member in queue.members().take(1) {
///     work.insert(&mut member, 0, 64)?; // before the crew begins
/// }
/// std::thread::scope(|scope| {
///     for member in queue.members() {
///         scope.spawn(|| work_on(&work, member));
///     }
/// });
/// assert_eq!((work.left(), work.given_up(), work.is_stopped()), (0, 0, false)); // all is done
/// # Ok(())
/// # }
/// ```
// Each thread counts in a share of its own, so that no two write one line of the cache; the last share is that
// of all threads that found no other. Only who finds no item adds all of them up.
//
// The orderings. What opens a piece comes before its insertion, which comes before the deletion that gives it,
// which comes before its closing; and what follows from it was opened before that, by the same thread. Counts
// are raised by a release and read by an acquire, the closed ones first. So who sees that a piece is closed
// sees that it and all that follows from it were opened, and what was written before. Where both sums are the
// same then, all that was opened is closed. A store of a share's owner is a release of all that it did before,
// and the additions of the last share prolong each other's release.
pub struct Work {
    shares: [Share; MOST_MEMBERS + 1],
    stopped: Flag,
}

/// Two lines of the cache, since processors fetch two at once.
#[repr(align(128))]
struct Share {
    /// The thread that has it, by an address of its own; 0 where none has.
    by: AtomicUsize,
    opened: AtomicU64,
    closed: AtomicU64,
    given_up: AtomicU64,
}

#[repr(align(128))]
struct Flag(AtomicBool);

thread_local! {
    /// Its address tells a thread from all others that are there.
    static HERE: Cell<u8> = const { Cell::new(0) };
}

/// In how many places a thread looks for a share.
const PLACES: usize = 8;

impl Share {
    const fn new() -> Share {
        Share {
            by: AtomicUsize::new(0),
            opened: AtomicU64::new(0),
            closed: AtomicU64::new(0),
            given_up: AtomicU64::new(0),
        }
    }

    /// Whether a thread has this share, which it takes where it is free.
    fn is_of(&self, thread: usize) -> bool {
        match self.by.load(Relaxed) {
            0 => {
                let taken = self.by.compare_exchange(0, thread, Relaxed, Relaxed);
                taken.is_ok()
            }
            by => by == thread,
        }
    }

    /// Raises a count of this share. Only in the last one others may write too.
    fn raise(&self, count: &AtomicU64, pieces: u64) {
        if self.by.load(Relaxed) == 0 {
            count.fetch_add(pieces, Release);
        } else {
            count.store(count.load(Relaxed).wrapping_add(pieces), Release);
        }
    }
}

impl Work {
    /// No work is open.
    #[must_use]
    pub const fn new() -> Work {
        #[allow(clippy::declare_interior_mutable_const)] // to be repeated
        const SHARE: Share = Share::new();
        Work {
            shares: [SHARE; MOST_MEMBERS + 1],
            stopped: Flag(AtomicBool::new(false)),
        }
    }

    /// Opens a piece and inserts its item, and waits while a lock that this needs is held. It takes each kind
    /// of member, and whatever has an [`Insert`].
    ///
    /// # Errors
    ///
    /// Those of the insertion. No piece is open then that was not before.
    pub fn insert<M: Insert>(
        &self,
        member: &mut M,
        key: u64,
        load: M::Load,
    ) -> Result<(), M::Error> {
        self.open(1);
        let open = Open(self); // so a panic of the insertion leaves none open
        let inserted = member.insert(key, load);
        match inserted {
            Ok(()) => mem::forget(open), // who deletes the item closes it
            Err(_) => open.done(),
        }
        inserted
    }

    /// Deletes by a member until it finds an item, and waits while work is open, longer each time, up to 400
    /// microseconds. It takes each kind of member, and whatever has a [`DeleteMin`].
    ///
    /// # Errors
    ///
    /// Why there is no item: no work is open, or the crew was stopped, or the count is wrong.
    pub fn next<M: DeleteMin>(&self, member: &mut M) -> Result<Piece<'_, M::Item>, End> {
        let mut pause = Pause::new();
        loop {
            if self.is_stopped() {
                return Err(End::Stopped);
            }
            if let Some(item) = member.delete_min() {
                let open = Open(self);
                return Ok(Piece { item, open });
            }
            self.is_open()?;
            pause.wait_for_work();
        }
    }

    /// The crew is to end, whatever is open: each thread that asks for work, or waits for some, gets
    /// [`End::Stopped`] from now on, and sees what was written before. A signal handler may call it.
    pub fn stop(&self) {
        self.stopped.0.store(true, Release);
    }

    /// Whether the crew was stopped.
    #[must_use]
    pub fn is_stopped(&self) -> bool {
        self.stopped.0.load(Acquire)
    }

    /// How many pieces are open, and 0 where more were closed than opened. While threads count it may be the
    /// number of no one moment, but it is 0 only where none is open; then what was written before each piece
    /// was closed is seen.
    #[must_use]
    pub fn left(&self) -> u64 {
        self.difference().max(0).unsigned_abs()
    }

    /// How many pieces were given up. Where none is open and this is 0, all was done.
    #[must_use]
    pub fn given_up(&self) -> u64 {
        self.sum(|share| &share.given_up)
    }

    /// Opens so many pieces by hand, before another thread can see them: where they are no items of a queue,
    /// or are inserted otherwise. Each is closed by [`done`](Work::done) or [`give_up`](Work::give_up), or by
    /// the [`Piece`] that has its item.
    pub fn open(&self, pieces: u64) {
        let mine = self.mine();
        mine.raise(&mine.opened, pieces);
    }

    /// Closes a piece that was opened by hand: it is done. All that follows from it was opened before.
    pub fn done(&self) {
        let mine = self.mine();
        mine.raise(&mine.closed, 1);
    }

    /// Closes a piece that was opened by hand, and is not done.
    pub fn give_up(&self) {
        let mine = self.mine();
        mine.raise(&mine.given_up, 1);
        mine.raise(&mine.closed, 1);
    }

    /// The share that this thread counts in: one that it has taken, which then nobody else writes. A thread
    /// that begins where another one ended goes on with its share; one that finds all places taken counts in
    /// the last share.
    fn mine(&self) -> &Share {
        let here = HERE.with(|here| ptr::from_ref(here) as usize);
        let first = ((here as u64).wrapping_mul(0x9e37_79b9_7f4a_7c15) >> 58) as usize;
        let mut places = (first..first + PLACES).map(|place| &self.shares[place % MOST_MEMBERS]);
        let mine = places.find(|share| share.is_of(here));
        mine.unwrap_or(&self.shares[MOST_MEMBERS])
    }

    fn sum(&self, count: impl Fn(&Share) -> &AtomicU64) -> u64 {
        let counts = self.shares.iter().map(|share| count(share).load(Acquire));
        counts.fold(0, u64::wrapping_add)
    }

    /// Whether who finds no item is to wait, or else why it ends. The pieces are counted first: where one stops
    /// the crew and then closes its piece, nobody who sees the latter takes it for the end of the work.
    fn is_open(&self) -> Result<(), End> {
        let difference = self.difference();
        if self.is_stopped() {
            return Err(End::Stopped);
        }
        match difference.signum() {
            1 => Ok(()),
            0 => Err(End::Done),
            _ => Err(End::Miscounted),
        }
    }

    /// How many pieces were opened less how many were closed, below 0 only where one was closed that was not
    /// open.
    fn difference(&self) -> i64 {
        let closed = self.sum(|share| &share.closed);
        self.sum(|share| &share.opened).wrapping_sub(closed) as i64
    }
}

impl Default for Work {
    fn default() -> Work {
        Work::new()
    }
}

impl fmt::Debug for Work {
    fn fmt(&self, to: &mut fmt::Formatter<'_>) -> fmt::Result {
        to.debug_struct("Work")
            .field("left", &self.left())
            .field("given_up", &self.given_up())
            .field("is_stopped", &self.is_stopped())
            .finish()
    }
}

/// An open piece, which is given up where it is dropped.
struct Open<'work>(&'work Work);

impl Open<'_> {
    fn done(self) {
        self.0.done();
        mem::forget(self);
    }
}

impl Drop for Open<'_> {
    fn drop(&mut self) {
        self.0.give_up();
    }
}

/// A piece of work in a thread's hands: what [`Work::next`] gives. It is read as its item.
///
/// [`done`](Piece::done) closes it. One that is dropped before, by a return or a panic, is given up. Where the
/// item is needed as a value, [`into_parts`](Piece::into_parts) takes it out, and the piece stays open.
///
/// ```
/// # fn main() -> Result<(), Box<dyn std::error::Error>> {
/// use klsm::{End, TypedQueue, Work};
///
/// let mut queue = TypedQueue::new(1)?;
/// let mut member = queue.members().next().ok_or("no member")?;
/// let work = Work::new();
/// work.insert(&mut member, 1, "one".to_string())?;
/// work.insert(&mut member, 2, "two".to_string())?;
/// work.insert(&mut member, 3, "three".to_string())?;
///
/// let mut piece = work.next(&mut member)?;
/// piece.payload.push('!'); // where it lies
/// assert_eq!((piece.key, piece.payload.as_str()), (1, "one!"));
/// piece.done();
///
/// let (item, piece) = work.next(&mut member)?.into_parts();
/// let words: String = item.payload; // it is the caller's
/// assert_eq!(words, "two");
/// piece.done();
///
/// drop(work.next(&mut member)?);
/// assert_eq!((work.left(), work.given_up()), (0, 1));
/// assert_eq!(work.next(&mut member).unwrap_err(), End::Done);
/// # Ok(())
/// # }
/// ```
#[must_use = "a piece that is dropped is given up"]
pub struct Piece<'work, Item> {
    // It goes before the piece is closed, so who sees the end sees that it is gone.
    item: Item,
    open: Open<'work>,
}

impl<'work, Item> Piece<'work, Item> {
    /// The piece is done: all that follows from it was opened before. The item is dropped.
    pub fn done(self) {
        let Piece { item, open } = self;
        drop(item);
        open.done();
    }

    /// Takes the item out. The other part is the piece, which stays open until it is done or dropped.
    #[must_use = "the piece is given up"]
    pub fn into_parts(self) -> (Item, Piece<'work, ()>) {
        let Piece { item, open } = self;
        (item, Piece { item: (), open })
    }
}

impl<Item> Deref for Piece<'_, Item> {
    type Target = Item;

    fn deref(&self) -> &Item {
        &self.item
    }
}

impl<Item> DerefMut for Piece<'_, Item> {
    fn deref_mut(&mut self) -> &mut Item {
        &mut self.item
    }
}

impl<Item: fmt::Debug> fmt::Debug for Piece<'_, Item> {
    fn fmt(&self, to: &mut fmt::Formatter<'_>) -> fmt::Result {
        to.debug_tuple("Piece").field(&self.item).finish()
    }
}

/// What [`Work::next`] deletes by: each kind of member, and what a program has around one.
pub trait DeleteMin {
    /// What a deletion gives.
    type Item;

    /// Deletes a small item and answers it. `None`: it found nothing, and there may be more.
    #[must_use = "the item was deleted"]
    fn delete_min(&mut self) -> Option<Self::Item>;
}

/// What [`Work::insert`] inserts by: each kind of member, and what a program has around one.
pub trait Insert {
    /// What an item carries beside its key.
    type Load;
    /// Why an insertion is refused, with the load where that comes back.
    type Error;

    /// Inserts a key with a load.
    ///
    /// # Errors
    ///
    /// The insertion is refused, and nothing has changed.
    fn insert(&mut self, key: u64, load: Self::Load) -> Result<(), Self::Error>;
}
