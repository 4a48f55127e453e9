//! Keys for a search by bounds, and for numbers that have a sign.

use klsm::{
    bound_of_key, bound_of_node, f64_of_key, i64_of_key, key_of_bound, key_of_f64, key_of_i64,
    key_of_node,
};
use std::cmp::Ordering;

const MOST: u64 = (1 << 48) - 1;

#[test]
fn keys_order_by_the_bound_and_then_by_the_depth() {
    let mut last = None;
    for bound in [0, 1, 2, 1 << 20, MOST - 1, MOST] {
        for depth in [65_535, 65_534, 1_000, 1, 0] {
            let key = key_of_bound(bound, depth);
            assert!(last < Some(key));
            assert_eq!(bound_of_key(key), bound);
            last = Some(key);
        }
    }
    assert_eq!(last, Some(u64::MAX));
}

#[test]
fn what_is_too_great_counts_as_the_greatest() {
    assert_eq!(key_of_bound(MOST + 1, 0), u64::MAX);
    assert_eq!(key_of_bound(u64::MAX, 5), key_of_bound(MOST, 5));
    assert_eq!(key_of_bound(9, 65_536), key_of_bound(9, 65_535));
    assert_eq!(key_of_bound(9, u32::MAX), 9 << 16);
}

const MOST_OF_A_NODE: u64 = (1 << 36) - 1;

#[test]
fn keys_of_nodes_order_by_the_bound_the_depth_and_the_turn() {
    let mut last = None;
    for bound in [0, 1, 2, 1 << 20, MOST_OF_A_NODE - 1, MOST_OF_A_NODE] {
        for depth in [4_095, 4_094, 1_000, 1, 0] {
            for turn in [65_535, 65_534, 1_000, 1, 0] {
                let key = key_of_node(bound, depth, turn);
                assert!(last < Some(key));
                assert_eq!(bound_of_node(key), bound);
                last = Some(key);
            }
        }
    }
    assert_eq!(last, Some(u64::MAX));
    assert_eq!(key_of_node(0, 4_095, 65_535), 0);
}

#[test]
fn a_part_of_a_node_that_is_too_great_is_cut() {
    assert_eq!(
        key_of_node(u64::MAX, 5, 6),
        key_of_node(MOST_OF_A_NODE, 5, 6)
    );
    assert_eq!(key_of_node(9, u32::MAX, 6), key_of_node(9, 4_095, 6));
    assert_eq!(key_of_node(9, 5, 65_536), key_of_node(9, 5, 0));
    assert_eq!(key_of_node(9, 5, u64::MAX), key_of_node(9, 5, 65_535));
}

/// A small generator: splitmix64.
struct Draw(u64);

impl Draw {
    fn bits(&mut self) -> u64 {
        self.0 = self.0.wrapping_add(0x9e37_79b9_7f4a_7c15);
        let mixed = (self.0 ^ self.0 >> 30).wrapping_mul(0xbf58_476d_1ce4_e5b9);
        let mixed = (mixed ^ mixed >> 27).wrapping_mul(0x94d0_49bb_1331_11eb);
        mixed ^ mixed >> 31
    }

    /// Two random words, which in half of the cases differ in one bit.
    fn pair(&mut self) -> (u64, u64) {
        let (one, other, how) = (self.bits(), self.bits(), self.bits());
        match how % 2 {
            0 => (one, other),
            _ => (one, one ^ 1 << ((how >> 1) % 64)),
        }
    }
}

const PAIRS: usize = 1_000_000;

/// The least double above 0.
const LEAST: f64 = 5e-324;

/// NaNs of both signs, quiet ones and others.
const NANS: [u64; 6] = [
    0x7ff8_0000_0000_0000,
    0xfff8_0000_0000_0000,
    0x7ff0_0000_0000_0001,
    0xfff0_0000_0000_0001,
    0x7fff_ffff_ffff_ffff,
    0xffff_ffff_ffff_ffff,
];

/// How two doubles are to be ordered, where each NaN is one number above all others.
fn order_of(one: f64, other: f64) -> Ordering {
    let of_nans = || one.is_nan().cmp(&other.is_nan());
    one.partial_cmp(&other).unwrap_or_else(of_nans)
}

/// The bits of the double that comes back.
fn returned(number: f64) -> u64 {
    f64_of_key(key_of_f64(number)).to_bits()
}

fn assert_returns(number: f64) {
    let expected = if number.is_nan() {
        NANS[0]
    } else if number == 0.0 {
        0
    } else {
        number.to_bits()
    };
    assert_eq!(returned(number), expected, "{number:e}");
}

fn assert_orders(one: f64, other: f64) {
    let order = key_of_f64(one).cmp(&key_of_f64(other));
    assert_eq!(order, order_of(one, other), "{one:e} and {other:e}");
}

#[test]
fn doubles_have_these_keys() {
    let keys = [
        (f64::NEG_INFINITY, 0x000f_ffff_ffff_ffff),
        (f64::MIN, 0x0010_0000_0000_0000),
        (-1.0, 0x400f_ffff_ffff_ffff),
        (-LEAST, 0x7fff_ffff_ffff_fffe),
        (-0.0, 0x8000_0000_0000_0000),
        (0.0, 0x8000_0000_0000_0000),
        (LEAST, 0x8000_0000_0000_0001),
        (1.0, 0xbff0_0000_0000_0000),
        (f64::MAX, 0xffef_ffff_ffff_ffff),
        (f64::INFINITY, 0xfff0_0000_0000_0000),
        (f64::NAN, 0xfff8_0000_0000_0000),
    ];
    for (number, key) in keys {
        assert_eq!(key_of_f64(number), key, "{number:e}");
    }
}

#[test]
fn doubles_are_ordered_and_come_back() {
    let (tiny, small) = (f64::MIN_POSITIVE - LEAST, f64::MIN_POSITIVE);
    let above = [
        0.0,
        LEAST,
        tiny,
        small,
        1.0,
        1.5,
        1e300,
        f64::MAX,
        f64::INFINITY,
    ];
    let all = above.iter().flat_map(|number| [*number, -*number]);
    let all: Vec<f64> = all.chain(NANS.map(f64::from_bits)).collect();
    for one in &all {
        assert_returns(*one);
        for other in &all {
            assert_orders(*one, *other);
        }
    }
}

#[test]
fn random_doubles_are_ordered_and_come_back() {
    let mut draw = Draw(1);
    for _ in 0..PAIRS {
        let (one, other) = draw.pair();
        let (one, other) = (f64::from_bits(one), f64::from_bits(other));
        assert_orders(one, other);
        assert_returns(one);
    }
}

#[test]
fn each_nan_has_the_key_of_the_quiet_one() {
    for bits in NANS {
        assert_eq!(key_of_f64(f64::from_bits(bits)), NANS[0] | 1 << 63);
        assert!(f64_of_key(key_of_f64(f64::from_bits(bits))).is_nan());
    }
}

#[test]
fn whole_numbers_have_these_keys() {
    let keys = [
        (i64::MIN, 0),
        (i64::MIN + 1, 1),
        (-1, (1 << 63) - 1),
        (0, 1 << 63),
        (1, (1 << 63) + 1),
        (i64::MAX, u64::MAX),
    ];
    for (number, key) in keys {
        assert_eq!(key_of_i64(number), key);
        assert_eq!(i64_of_key(key), number);
    }
}

#[test]
fn random_whole_numbers_are_ordered_and_come_back() {
    let mut draw = Draw(2);
    for _ in 0..PAIRS {
        let (one, other) = draw.pair();
        let (one, other) = (one as i64, other as i64);
        assert_eq!(key_of_i64(one).cmp(&key_of_i64(other)), one.cmp(&other));
        assert_eq!(i64_of_key(key_of_i64(one)), one);
    }
}

/// By the complement of a key the greatest comes first.
#[test]
fn complements_have_the_other_order() {
    assert!(!key_of_f64(2.0) < !key_of_f64(-2.0));
    assert!(!key_of_i64(2) < !key_of_i64(-2));
}
