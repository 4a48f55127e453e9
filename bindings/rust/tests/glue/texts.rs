//! The texts of errors, the greatest bound and depth of a key, and the version of the crate.

use crate::stub;
use klsm::{Busy, FinishError, InsertError, OpenError, Refused, ShareError, TryInsertError};
use klsm::{TryShareError, TypedFinishError, TypedQueue};
use std::error::Error;

const HEADER: &str = include_str!("../../../../include/klsm.h");
const KEYS: &str = include_str!("../../../../include/klsm_keys.h");

/// The text of a code in klsm.h.
fn of_code(name: &str) -> &'static str {
    let words = format!("case KLSM_{name}: return \"");
    let (_, rest) = HEADER.split_once(&words).unwrap();
    rest.split_once('"').unwrap().0
}

/// A payload that has no text.
struct Silent;

fn refused<Why>(why: Why) -> Refused<Silent, Why> {
    let payload = Silent;
    Refused { payload, why }
}

fn unfinished() -> TypedFinishError<Silent> {
    stub::begin();
    TypedFinishError(TypedQueue::new(2).unwrap())
}

/// Each error, and what it says: the words of klsm.h, or its own.
fn texts() -> [(Box<dyn Error>, &'static str); 21] {
    let (memory, spent) = (of_code("NO_MEMORY"), of_code("SPENT"));
    let (busy, full) = (
        "a lock is held by another member",
        "the shared part is full",
    );
    [
        (Box::new(Busy), busy),
        (
            Box::new(OpenError::Version {
                found: 3,
                expected: 1,
            }),
            "the library's interface is of version 3, not 1",
        ),
        (
            Box::new(OpenError::BadThreads),
            "the number of threads is not 1 to 64",
        ),
        (Box::new(OpenError::BadK), of_code("BAD_K")),
        (Box::new(OpenError::NoMemory), memory),
        (Box::new(InsertError::Spent), spent),
        (Box::new(InsertError::Full), full),
        (Box::new(InsertError::NoMemory), memory),
        (Box::new(TryInsertError::Spent), spent),
        (Box::new(TryInsertError::Busy), busy),
        (Box::new(TryInsertError::Full), full),
        (Box::new(TryInsertError::NoMemory), memory),
        (Box::new(ShareError::Full), full),
        (Box::new(ShareError::NoMemory), memory),
        (Box::new(TryShareError::Busy), busy),
        (Box::new(TryShareError::Full), full),
        (Box::new(TryShareError::NoMemory), memory),
        (Box::new(FinishError::Shared), of_code("SHARED")),
        (Box::new(refused(InsertError::Spent)), spent),
        (Box::new(refused(TryInsertError::Busy)), busy),
        (Box::new(unfinished()), memory),
    ]
}

#[test]
fn each_error_has_its_text() {
    for (error, text) in texts() {
        assert_eq!(error.to_string(), text);
    }
}

#[test]
fn errors_with_payloads_have_none_in_their_text() {
    let text = format!("{:?}", refused(InsertError::Full));
    assert_eq!(text, "Refused { why: Full, .. }");
    let text = format!("{:?}", unfinished());
    assert_eq!(text, "TypedFinishError(TypedQueue { threads: 2, .. })");
}

#[test]
fn errors_of_other_causes_have_other_texts() {
    let mut all: Vec<_> = texts().iter().map(|(_, text)| *text).collect();
    all.sort_unstable();
    all.dedup();
    assert_eq!(all.len(), 8);
}

#[test]
fn an_error_of_an_insertion_stays_what_it_is() {
    assert_eq!(
        TryInsertError::from(InsertError::Spent),
        TryInsertError::Spent
    );
    assert_eq!(
        TryInsertError::from(InsertError::Full),
        TryInsertError::Full
    );
    assert_eq!(
        TryInsertError::from(InsertError::NoMemory),
        TryInsertError::NoMemory
    );
}

#[test]
fn an_error_of_a_sharing_stays_what_it_is() {
    assert_eq!(TryShareError::from(ShareError::Full), TryShareError::Full);
    assert_eq!(
        TryShareError::from(ShareError::NoMemory),
        TryShareError::NoMemory
    );
}

#[test]
fn the_version_is_that_of_klsm_h() {
    let line = concat!("#define KLSM_VERSION \"", env!("CARGO_PKG_VERSION"), "\"\n");
    assert!(HEADER.contains(line));
}

#[test]
fn the_greatest_bound_and_depth_are_those_of_klsm_h() {
    assert!(KEYS.contains("#define KLSM_MAX_BOUND ((UINT64_C(1) << 48) - 1)"));
    assert!(KEYS.contains("#define KLSM_MAX_DEPTH UINT32_C(65535)"));
    assert_eq!(klsm::key_of_bound(u64::MAX, 0), u64::MAX);
    assert_eq!(klsm::key_of_bound((1 << 48) - 2, 0), u64::MAX - (1 << 16));
    assert_eq!(klsm::key_of_bound(0, 65_534), 1);
    assert_eq!(klsm::key_of_bound(0, 65_535), 0);
    assert_eq!(klsm::key_of_bound(0, u32::MAX), 0);
}

#[test]
fn the_greatest_parts_of_a_node_are_those_of_klsm_h() {
    assert!(KEYS.contains("#define KLSM_MAX_NODE_BOUND ((UINT64_C(1) << 36) - 1)"));
    assert!(KEYS.contains("#define KLSM_MAX_NODE_DEPTH UINT32_C(4095)"));
    assert_eq!(klsm::key_of_node(u64::MAX, 0, 0), u64::MAX);
    assert_eq!(klsm::key_of_node((1 << 36) - 2, 0, 0), u64::MAX - (1 << 28));
    assert_eq!(klsm::key_of_node(0, 4_094, 65_535), 1 << 16);
    assert_eq!(klsm::key_of_node(0, 4_095, 65_534), 1);
    assert_eq!(klsm::key_of_node(0, u32::MAX, u64::MAX), 0);
}
