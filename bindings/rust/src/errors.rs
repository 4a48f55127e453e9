//! Why calls are refused.

use crate::queue::Queue;
use crate::typed::TypedQueue;
use std::error::Error;
use std::fmt;

/// A lock that the call needed was held by another member. No part of the queue has changed.
#[derive(Clone, Copy, Debug, PartialEq, Eq)]
pub struct Busy;

/// Why a queue is not made. The causes are tried in this order.
#[derive(Clone, Copy, Debug, PartialEq, Eq)]
#[non_exhaustive]
pub enum OpenError {
    /// The library has another binary interface than the one that this crate expects.
    Version {
        /// That of the library.
        found: u32,
        /// That of this crate.
        expected: u32,
    },
    /// Not 1 to 64 threads.
    BadThreads,
    /// k is above 1,024.
    BadK,
    /// Out of memory.
    NoMemory,
}

/// Why an insertion that may wait is refused. Nothing has changed then.
#[derive(Clone, Copy, Debug, PartialEq, Eq)]
#[non_exhaustive]
pub enum InsertError {
    /// The member has made all its insertions, which are 2^48.
    Spent,
    /// The shared part has no room for what would move there: it has room for 2^26 items.
    Full,
    /// Out of memory.
    NoMemory,
}

/// Why an insertion that never blocks is refused. No part of the queue has changed then.
#[derive(Clone, Copy, Debug, PartialEq, Eq)]
#[non_exhaustive]
pub enum TryInsertError {
    /// The member has made all its insertions, which are 2^48.
    Spent,
    /// A lock that the call needed was held by another member.
    Busy,
    /// The shared part has no room for what would move there: it has room for 2^26 items.
    Full,
    /// Out of memory.
    NoMemory,
}

/// Why a sharing that may wait is refused. No item has moved then.
#[derive(Clone, Copy, Debug, PartialEq, Eq)]
#[non_exhaustive]
pub enum ShareError {
    /// The shared part has no room for all items of the own part: it has room for 2^26 items.
    Full,
    /// Out of memory.
    NoMemory,
}

/// Why a sharing that never blocks is refused. No item has moved then.
#[derive(Clone, Copy, Debug, PartialEq, Eq)]
#[non_exhaustive]
pub enum TryShareError {
    /// A lock that the call needed was held by another member.
    Busy,
    /// The shared part has no room for all items of the own part: it has room for 2^26 items.
    Full,
    /// Out of memory.
    NoMemory,
}

/// Why [`Work::next`](crate::Work::next) gives no piece. (That a member is not open is no cause here: each is.)
#[derive(Clone, Copy, Debug, PartialEq, Eq)]
#[non_exhaustive]
pub enum End {
    /// Nothing was found, and no work is open: all is done, or was given up.
    Done,
    /// The crew was stopped.
    Stopped,
    /// Nothing was found, and more pieces were closed than had been opened: a mistake of the program. Others may
    /// have seen `Done` too early; who closes the last piece and asks again sees this.
    Miscounted,
}

/// Why a queue is not finished.
#[derive(Debug)]
#[non_exhaustive]
pub enum FinishError {
    /// Out of memory. Nothing has changed: here is the queue, which goes on as it was.
    NoMemory(Queue),
    /// The library found another owner of the queue. No call of this crate leads there, but no proof
    /// says so. The queue is gone with what was in it.
    Shared,
}

/// Why a typed queue is not finished: memory was refused. Nothing has changed: here is the queue, which
/// goes on as it was.
pub struct TypedFinishError<T>(pub TypedQueue<T>);

/// An insertion into a typed queue that was refused: the payload, which comes back, and why. Nothing has
/// changed then.
#[derive(Clone, Copy, PartialEq, Eq)]
pub struct Refused<T, Why> {
    /// What was not inserted.
    pub payload: T,
    /// Why: an [`InsertError`], or a [`TryInsertError`].
    pub why: Why,
}

impl From<InsertError> for TryInsertError {
    fn from(why: InsertError) -> Self {
        match why {
            InsertError::Spent => TryInsertError::Spent,
            InsertError::Full => TryInsertError::Full,
            InsertError::NoMemory => TryInsertError::NoMemory,
        }
    }
}

impl From<ShareError> for TryShareError {
    fn from(why: ShareError) -> Self {
        match why {
            ShareError::Full => TryShareError::Full,
            ShareError::NoMemory => TryShareError::NoMemory,
        }
    }
}

const BUSY_TEXT: &str = "a lock is held by another member";
const SPENT_TEXT: &str = "the member has made all its insertions";
const FULL_TEXT: &str = "the shared part is full";
const MEMORY_TEXT: &str = "out of memory";

impl fmt::Display for Busy {
    fn fmt(&self, to: &mut fmt::Formatter<'_>) -> fmt::Result {
        to.write_str(BUSY_TEXT)
    }
}

impl fmt::Display for OpenError {
    fn fmt(&self, to: &mut fmt::Formatter<'_>) -> fmt::Result {
        match self {
            OpenError::Version { found, expected } => {
                write!(
                    to,
                    "the library's interface is of version {found}, not {expected}"
                )
            }
            OpenError::BadThreads => to.write_str("the number of threads is not 1 to 64"),
            OpenError::BadK => to.write_str("k is above 1024"),
            OpenError::NoMemory => to.write_str(MEMORY_TEXT),
        }
    }
}

impl fmt::Display for InsertError {
    fn fmt(&self, to: &mut fmt::Formatter<'_>) -> fmt::Result {
        to.write_str(match self {
            InsertError::Spent => SPENT_TEXT,
            InsertError::Full => FULL_TEXT,
            InsertError::NoMemory => MEMORY_TEXT,
        })
    }
}

impl fmt::Display for TryInsertError {
    fn fmt(&self, to: &mut fmt::Formatter<'_>) -> fmt::Result {
        to.write_str(match self {
            TryInsertError::Spent => SPENT_TEXT,
            TryInsertError::Busy => BUSY_TEXT,
            TryInsertError::Full => FULL_TEXT,
            TryInsertError::NoMemory => MEMORY_TEXT,
        })
    }
}

impl fmt::Display for ShareError {
    fn fmt(&self, to: &mut fmt::Formatter<'_>) -> fmt::Result {
        to.write_str(match self {
            ShareError::Full => FULL_TEXT,
            ShareError::NoMemory => MEMORY_TEXT,
        })
    }
}

impl fmt::Display for TryShareError {
    fn fmt(&self, to: &mut fmt::Formatter<'_>) -> fmt::Result {
        to.write_str(match self {
            TryShareError::Busy => BUSY_TEXT,
            TryShareError::Full => FULL_TEXT,
            TryShareError::NoMemory => MEMORY_TEXT,
        })
    }
}

impl fmt::Display for End {
    fn fmt(&self, to: &mut fmt::Formatter<'_>) -> fmt::Result {
        to.write_str(match self {
            End::Done => "no work is open",
            End::Stopped => "the work was stopped",
            End::Miscounted => "more work was closed than was opened",
        })
    }
}

impl fmt::Display for FinishError {
    fn fmt(&self, to: &mut fmt::Formatter<'_>) -> fmt::Result {
        to.write_str(match self {
            FinishError::NoMemory(_) => MEMORY_TEXT,
            FinishError::Shared => "the queue has another owner",
        })
    }
}

// No payload is shown, so that there is a text whatever it is.
impl<T> fmt::Debug for TypedFinishError<T> {
    fn fmt(&self, to: &mut fmt::Formatter<'_>) -> fmt::Result {
        to.debug_tuple("TypedFinishError").field(&self.0).finish()
    }
}

impl<T> fmt::Display for TypedFinishError<T> {
    fn fmt(&self, to: &mut fmt::Formatter<'_>) -> fmt::Result {
        to.write_str(MEMORY_TEXT)
    }
}

impl<T, Why: fmt::Debug> fmt::Debug for Refused<T, Why> {
    fn fmt(&self, to: &mut fmt::Formatter<'_>) -> fmt::Result {
        to.debug_struct("Refused")
            .field("why", &self.why)
            .finish_non_exhaustive()
    }
}

impl<T, Why: fmt::Display> fmt::Display for Refused<T, Why> {
    fn fmt(&self, to: &mut fmt::Formatter<'_>) -> fmt::Result {
        self.why.fmt(to)
    }
}

impl Error for Busy {}
impl Error for OpenError {}
impl Error for InsertError {}
impl Error for TryInsertError {}
impl Error for ShareError {}
impl Error for TryShareError {}
impl Error for End {}
impl Error for FinishError {}
impl<T> Error for TypedFinishError<T> {}
impl<T, Why: Error> Error for Refused<T, Why> {}
