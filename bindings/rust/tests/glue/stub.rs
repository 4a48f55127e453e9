//! What bindings/tests/stub.h declares, and the numbers that stand in the library's sources.

use std::fmt::Debug;
use std::panic::{catch_unwind, AssertUnwindSafe};

/// The exports of the library, as the stub counts them.
#[derive(Clone, Copy)]
pub enum Call {
    Abi,
    Open,
    OpenWithBalance,
    TryInsert,
    TryDeleteMin,
    Inserted,
    Deleted,
    Close,
    Drop,
    Front,
    TryDeleteMinAlone,
    TryShare,
    TryBound,
    TryRest,
}

mod declared {
    extern "C" {
        pub fn stub_begin();
        pub fn stub_answer(call: u32, answer: u64);
        pub fn stub_hold(call: u32, times: u64);
        pub fn stub_leave(inserted: u64, deleted: u64, left: u64);
        pub fn stub_asked(call: u32) -> u64;
        pub fn stub_repeats(call: u32) -> i32;
        pub fn stub_argument(call: u32, place: u32) -> u64;
        pub fn stub_queues() -> u64;
    }
}

// SAFETY, of all of them: the stub keeps plain numbers, those of each thread apart, and a call and a place are
// among those that it has.

/// Forgets all that this thread's stub was told and asked.
pub fn begin() {
    unsafe { declared::stub_begin() };
}

/// What a call answers that has a count or a version.
pub fn answer(call: Call, answer: u64) {
    unsafe { declared::stub_answer(call as u32, answer) };
}

/// What a call answers that has a code, where a lock is held for so many tries.
pub fn answer_code(call: Call, held: u64, code: i32) {
    begin();
    answer(call, code as u64);
    unsafe { declared::stub_hold(call as u32, held) };
}

pub fn leave(inserted: u64, deleted: u64, left: u64) {
    unsafe { declared::stub_leave(inserted, deleted, left) };
}

pub fn asked(call: Call) -> u64 {
    unsafe { declared::stub_asked(call as u32) }
}

pub fn repeats(call: Call) -> bool {
    unsafe { declared::stub_repeats(call as u32) != 0 }
}

pub fn argument(call: Call, place: u32) -> u64 {
    assert!(place < 7);
    unsafe { declared::stub_argument(call as u32, place) }
}

/// How many queues are open.
pub fn queues() -> u64 {
    unsafe { declared::stub_queues() }
}

const CODES: &str = include_str!("../../../../crates/klsm_c/src/codes.rt");
const OPENING: &str = include_str!("../../../../crates/klsm_c/src/opening.rt");

/// The number that stands behind these words.
fn number_behind(text: &str, words: &str) -> i32 {
    let (_, rest) = text.split_once(words).unwrap_or_else(|| panic!("{words}"));
    let end = rest.find(|c: char| !c.is_ascii_digit()).unwrap();
    rest[..end].parse().unwrap()
}

/// The library's number of a code.
pub fn code(name: &str) -> i32 {
    number_behind(CODES, &format!("const {name}: i32 = "))
}

/// The names of all codes, and their numbers.
pub fn codes() -> Vec<(&'static str, i32)> {
    let names = CODES.lines().filter_map(|line| {
        let (name, _) = line.strip_prefix("pub(crate) const ")?.split_once(':')?;
        Some((name, code(name)))
    });
    names.collect()
}

/// The library's version of the interface.
pub fn abi() -> u32 {
    number_behind(CODES, "fn klsm_abi() -> u32\n    ensures { result ≡ ") as u32
}

/// The library's number of a pick.
pub fn pick(name: &str) -> u64 {
    let words = format!(" => Some(Pick::{name})");
    let line = OPENING.lines().find(|line| line.contains(&words)).unwrap();
    line.trim()
        .strip_suffix(&format!("{words},"))
        .unwrap()
        .parse()
        .unwrap()
}

/// What a call answers, as text: for one that panics, what it says then.
pub fn said<T: Debug>(call: impl FnOnce() -> T) -> String {
    match catch_unwind(AssertUnwindSafe(call)) {
        Ok(answer) => format!("{answer:?}"),
        Err(why) => *why.downcast::<String>().unwrap(),
    }
}

/// What is said of a code that a call of the library never answers.
pub fn never(call: &str, code: i32) -> String {
    format!("{call} answered code {code}, which it never does: is libklsm.a of this version?")
}
