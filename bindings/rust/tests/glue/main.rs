//! The crate over the library of bindings/tests/stub.c, which has no queue and answers what it is told: what
//! it hands on, and what it answers. `bindings/check` builds the stub, and names this test; without the stub
//! it cannot be linked. The tests of what calls no library stand here too.

#[path = "../blocks/mod.rs"]
mod blocks;
mod calls;
mod closing;
mod counted;
#[path = "../keys.rs"]
mod keys;
mod openings;
mod owned;
mod stub;
mod texts;
mod typed;
#[path = "../work.rs"]
mod work;
