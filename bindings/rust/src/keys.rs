//! Keys for a search by bounds, and for numbers that have a sign.

const MOST_NODE_BOUND: u64 = (1 << 36) - 1;
const MOST_NODE_DEPTH: u32 = 4_095;
const MOST_BOUND: u64 = (1 << 48) - 1;
const MOST_DEPTH: u32 = 65_535;

/// A key that orders items by a bound, of which the smallest is the most promising; items of one bound by
/// their depth, the deepest first; and those of one depth too by their turn, the newest first.
///
/// Where items share a key, a deletion takes the shared lock only to find that its member's own item goes
/// first after all, since an own item goes without it only where its key is less than that of each shared
/// item. So it pays to tell items of one bound apart: the deepest ones are the nearest to a solution, and
/// the turn is a count of the thread's own, as [`inserted_count`](crate::Member::inserted_count) of its
/// member is. A bound above 2^36 - 1 counts as that number, and a depth above 4,095 as that one; the turn
/// counts modulo 2^16.
///
/// ```
/// assert!(klsm::key_of_node(7, 3, 1) < klsm::key_of_node(7, 3, 0));
/// assert!(klsm::key_of_node(7, 3, 0) < klsm::key_of_node(7, 2, 9));
/// assert!(klsm::key_of_node(7, 2, 0) < klsm::key_of_node(8, 9, 9));
/// assert_eq!(klsm::bound_of_node(klsm::key_of_node(7, 3, 1)), 7);
/// ```
#[must_use]
pub const fn key_of_node(bound: u64, depth: u32, turn: u64) -> u64 {
    let bound = if bound < MOST_NODE_BOUND {
        bound
    } else {
        MOST_NODE_BOUND
    };
    let depth = if depth < MOST_NODE_DEPTH {
        depth
    } else {
        MOST_NODE_DEPTH
    };
    bound << 28 | ((MOST_NODE_DEPTH - depth) as u64) << 16 | !turn & 0xffff
}

/// The bound of a key that [`key_of_node`] made.
#[must_use]
pub const fn bound_of_node(key: u64) -> u64 {
    key >> 28
}

/// A key as [`key_of_node`] makes it, for greater bounds and depths and with no turn: for a search where few
/// items share both. A bound above 2^48 - 1 counts as that number, and a depth above 65,535 as that one.
///
/// ```
/// assert!(klsm::key_of_bound(7, 3) < klsm::key_of_bound(7, 2));
/// assert!(klsm::key_of_bound(7, 2) < klsm::key_of_bound(8, 9));
/// assert_eq!(klsm::bound_of_key(klsm::key_of_bound(7, 3)), 7);
/// ```
#[must_use]
pub const fn key_of_bound(bound: u64, depth: u32) -> u64 {
    let bound = if bound < MOST_BOUND {
        bound
    } else {
        MOST_BOUND
    };
    let depth = if depth < MOST_DEPTH {
        depth
    } else {
        MOST_DEPTH
    };
    bound << 16 | (MOST_DEPTH - depth) as u64
}

/// The bound of a key that [`key_of_bound`] made.
#[must_use]
pub const fn bound_of_key(key: u64) -> u64 {
    key >> 16
}

/// The bit that tells a number's sign.
const SIGN: u64 = 1 << 63;

/// The bits of the one NaN that has a key: quiet, positive, and nothing else.
const NAN: u64 = 0x7ff8_0000_0000_0000;

/// A key that orders items by a double, the smallest first. `!key_of_f64(x)` orders them with the greatest
/// first.
///
/// Of numbers the smaller has the smaller key, and equal ones, which 0 and -0 are, have the same. Each NaN
/// has one key above that of infinity.
///
/// ```
/// assert!(klsm::key_of_f64(-1.5) < klsm::key_of_f64(2.0));
/// assert_eq!(klsm::key_of_f64(-0.0), klsm::key_of_f64(0.0));
/// assert!(klsm::key_of_f64(f64::NAN) > klsm::key_of_f64(f64::INFINITY));
/// assert_eq!(klsm::f64_of_key(klsm::key_of_f64(-1.5)), -1.5);
/// ```
#[must_use]
pub fn key_of_f64(number: f64) -> u64 {
    let bits = if number.is_nan() {
        NAN
    } else if number == 0.0 {
        0
    } else {
        number.to_bits()
    };
    if bits & SIGN == 0 {
        bits | SIGN
    } else {
        !bits
    }
}

/// The double of a key that [`key_of_f64`] made: 0 for -0, and a quiet NaN for each NaN.
#[must_use]
pub fn f64_of_key(key: u64) -> f64 {
    f64::from_bits(if key & SIGN == 0 { !key } else { key & !SIGN })
}

/// A key that orders items by a whole number with a sign, the smallest first. `!key_of_i64(x)` orders them
/// with the greatest first.
///
/// ```
/// assert!(klsm::key_of_i64(-7) < klsm::key_of_i64(3));
/// assert_eq!(klsm::i64_of_key(klsm::key_of_i64(-7)), -7);
/// ```
#[must_use]
pub const fn key_of_i64(number: i64) -> u64 {
    number as u64 ^ SIGN
}

/// The number of a key that [`key_of_i64`] made.
#[must_use]
pub const fn i64_of_key(key: u64) -> i64 {
    (key ^ SIGN) as i64
}
