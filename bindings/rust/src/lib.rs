//! A k-LSM relaxed concurrent priority queue, for up to 64 threads.
//!
//! An [`Item`] has a 64-bit key, of which the smallest is the most urgent, and a 64-bit load, which the
//! queue never reads. A [`Queue`] of T threads and k has T members. Each [`Member`] is used by one
//! thread at a time, and keeps up to k items for itself; all share the others. A deletion gives one
//! of the small items: at most T·k smaller ones are in the queue at that moment. With k = 0 it gives
//! the smallest. [`Queue::new`] takes a k that suits many threads, and [`Queue::builder`] the one that is named.
//!
//! ```
//! use klsm::Queue;
//!
//! # fn main() -> Result<(), Box<dyn std::error::Error>> {
//! let mut queue = Queue::new(4)?;
//! std::thread::scope(|scope| {
//!     for mut member in queue.members() {
//!         scope.spawn(move || {
//!             let number = u64::from(member.number());
//!             for i in 0..1_000 {
//!                 member.insert(i, number).expect("there is room");
//!             }
//!             for _ in 0..500 {
//!                 let _item = member.delete_min();
//!             }
//!         });
//!     }
//! });
//! let account = queue.finish()?;
//! assert_eq!(account.inserted, 4_000);
//! assert_eq!(account.inserted, account.deleted + account.left.len() as u64);
//! # Ok(())
//! # }
//! ```
//!
//! # Which queue, which member
//!
//! A [`Member`] borrows its queue: it is for scoped threads. [`Queue::into_members`] gives members that
//! own the queue together, for a pool and for threads that borrow nothing. The items of a [`TypedQueue`]
//! carry payloads of a type, such as a `String` or a `Box`, where those of a [`Queue`] have a number.
//! Where items lead to more items, [`Work`] tells a crew of threads when all is done. Keys that are no whole
//! numbers of 64 bits are made by [`key_of_f64`], [`key_of_i64`], [`key_of_node`] and [`key_of_bound`].
//!
//! # What is behind it
//!
//! The queue is a library that is proved in Rattle and called through its interface for C. The proof
//! speaks of the functions of that library, call by call. It does not speak of this crate, which is
//! thin, has no dependencies and is tested. The folder that has `libklsm.a` is named by the variable
//! `KLSM_LIB_DIR` at build time. Without it, it is `out` beside this crate's folder, where the command
//! `bindings/build` of the repository puts the archive, or `lib` of the folder that `bindings/install`
//! has installed this crate in.
//!
//! # What the types keep apart
//!
//! The library wants a queue to stay where it is, one call at a time for each member, and the whole
//! queue for opening, closing and dropping. Here a queue's memory is on the heap and never moves,
//! each call that changes a member takes it by `&mut`, and members borrow their queue, or own it
//! together. So no safe code can break these rules. In particular:
//!
//! A queue cannot be finished while a member is in use:
//!
//! ```compile_fail,E0505
//! let mut queue = klsm::Queue::new(2).unwrap();
//! let mut member = queue.members().next().unwrap();
//! queue.finish().unwrap();
//! member.delete_min();
//! ```
//!
//! nor after it was finished:
//!
//! ```compile_fail,E0382
//! let mut queue = klsm::Queue::new(2).unwrap();
//! queue.finish().unwrap();
//! queue.members();
//! ```
//!
//! A member does not outlive its queue:
//!
//! ```compile_fail,E0597
//! let mut members = Vec::new();
//! {
//!     let mut queue = klsm::Queue::new(2).unwrap();
//!     members.extend(queue.members());
//! }
//! members[0].delete_min();
//! ```
//!
//! The members of a queue are given once at a time, so no two threads have the same one:
//!
//! ```compile_fail,E0499
//! let mut queue = klsm::Queue::new(2).unwrap();
//! let mut one = queue.members().next().unwrap();
//! let mut same = queue.members().next().unwrap();
//! one.delete_min();
//! same.delete_min();
//! ```
//!
//! nor is a member copied:
//!
//! ```compile_fail,E0382
//! let mut queue = klsm::Queue::new(2).unwrap();
//! let mut member = queue.members().next().unwrap();
//! let mut same = member;
//! member.delete_min();
//! same.delete_min();
//! ```
//!
//! or shared between threads:
//!
//! ```compile_fail,E0277
//! let mut queue = klsm::Queue::new(2).unwrap();
//! let member = queue.members().next().unwrap();
//! std::thread::scope(|scope| {
//!     scope.spawn(|| member.inserted_count());
//! });
//! ```
//!
//! and neither is one that owns its queue with the others:
//!
//! ```compile_fail,E0277
//! let member = klsm::Queue::new(1).unwrap().into_members().remove(0);
//! std::thread::scope(|scope| {
//!     scope.spawn(|| member.inserted_count());
//! });
//! ```
//!
//! A queue may be shared, but what is shared neither lends its members nor counts what is left:
//!
//! ```compile_fail,E0596
//! let queue = std::sync::Arc::new(klsm::Queue::new(2).unwrap());
//! queue.left();
//! ```
//!
//! The slot by which the library knows a member cannot be reached, so the slots of two queues cannot
//! be exchanged:
//!
//! ```compile_fail,E0614
//! let mut one = klsm::Queue::new(1).unwrap();
//! let mut other = klsm::Queue::new(1).unwrap();
//! let mut a = one.members().next().unwrap();
//! let mut b = other.members().next().unwrap();
//! std::mem::swap(&mut *a, &mut *b);
//! ```
//!
//! ```compile_fail,E0616
//! let mut one = klsm::Queue::new(1).unwrap();
//! let mut other = klsm::Queue::new(1).unwrap();
//! let mut a = one.members().next().unwrap();
//! let mut b = other.members().next().unwrap();
//! std::mem::swap(a.slot, b.slot);
//! ```
//!
//! (To swap `a` and `b` themselves compiles. Each still leads to its own slot in its own queue.)
//!
//! A [`TypedQueue`] has payloads that threads may send to each other:
//!
//! ```compile_fail,E0277
//! klsm::TypedQueue::<std::rc::Rc<u32>>::new(2).unwrap();
//! ```
//!
//! and that live as long as it says:
//!
//! ```compile_fail,E0597
//! let mut queue = klsm::TypedQueue::<&'static str>::new(2).unwrap();
//! let text = "short".to_string();
//! queue.members().next().unwrap().insert(1, &text).unwrap();
//! ```
//!
//! ```compile_fail,E0597
//! let mut members = klsm::TypedQueue::<&'static str>::new(2).unwrap().into_members();
//! let text = "short".to_string();
//! members.remove(0).insert(1, &text).unwrap();
//! members[0].delete_min();
//! ```
//!
//! # What is left to the caller
//!
//! Others find the items that a member keeps for itself late, as a rule only once they find nothing else. So a thread
//! calls [`share`](Member::share) before it works for long, and before it drops its member. Where others ask for a
//! [`bound`](Member::bound), it [rests](Member::rest) before it drops its member, too.
//!
//! No call from a signal handler but [`Work::stop`], and none in a forked child of a process that had several
//! threads.
//! An answer "nothing" does not say that the queue is empty: see [`Member::delete_min`].

mod builder;
mod errors;
mod keys;
mod member;
mod owned;
mod pause;
mod queue;
mod remaining;
mod sys;
mod typed;
mod work;

pub use builder::Builder;
pub use errors::{
    Busy, End, FinishError, InsertError, OpenError, Refused, ShareError, TryInsertError,
    TryShareError, TypedFinishError,
};
pub use keys::{
    bound_of_key, bound_of_node, f64_of_key, i64_of_key, key_of_bound, key_of_f64, key_of_i64,
    key_of_node,
};
pub use member::{Member, Members};
pub use owned::OwnedMember;
pub use queue::{Account, Pick, Queue};
pub use sys::{Bound, Item};
pub use typed::{OwnedTypedMember, TypedItem, TypedMember, TypedMembers, TypedQueue};
pub use work::{DeleteMin, Insert, Piece, Work};
