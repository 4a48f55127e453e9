//! What is left in a queue, taken out by deletions.

use crate::member::{Member, Members, REFILLING};
use crate::queue::Queue;
use crate::sys::RawItem;

/// What is left in a queue that no one else uses, in no order, each item deleted when it is given.
///
/// Deletions take no memory. One member finds what all have, since no part is held by another. The
/// others are asked all the same, so that it ends and leaves nothing whatever the first one finds.
pub(crate) struct Remaining<'queue> {
    left: u64,
    member: Option<Member<'queue>>,
    others: Members<'queue>,
}

impl<'queue> Remaining<'queue> {
    pub(crate) fn of(queue: &'queue mut Queue) -> Self {
        let left = queue.left();
        let mut members = queue.members();
        Remaining {
            left,
            member: members.next(),
            others: members,
        }
    }
}

impl Iterator for Remaining<'_> {
    type Item = RawItem;

    fn next(&mut self) -> Option<RawItem> {
        while self.left > 0 {
            if let Some(item) = self.member.as_mut()?.delete_raw::<REFILLING>() {
                self.left -= 1;
                return Some(item);
            }
            self.member = self.others.next();
        }
        None
    }
}
