//! Openings: what arrives, each code, the version, and the drop.

use crate::stub::{self, Call};
use klsm::{OpenError, Pick, Queue};

/// The numbers of the last opening behind the queue: threads, k, pick, seed, refill and balance.
fn opened() -> [u64; 6] {
    assert_eq!(stub::asked(Call::OpenWithBalance), 1);
    assert_eq!(stub::asked(Call::Open), 0);
    assert_ne!(stub::argument(Call::OpenWithBalance, 0), 0);
    [1, 2, 3, 4, 5, 6].map(|place| stub::argument(Call::OpenWithBalance, place))
}

/// What an opening asks for; its queue is dropped, once.
fn asked_by(open: impl FnOnce() -> Result<Queue, OpenError>) -> [u64; 6] {
    stub::begin();
    let queue = open().unwrap();
    let numbers = opened();
    assert_eq!(queue.threads() as u64, numbers[0]);
    assert_eq!((stub::queues(), stub::asked(Call::Drop)), (1, 0));
    drop(queue);
    assert_eq!((stub::queues(), stub::asked(Call::Drop)), (0, 1));
    assert_eq!(
        stub::argument(Call::Drop, 0),
        stub::argument(Call::OpenWithBalance, 0)
    );
    numbers
}

const SEED: u64 = 7 << 40;

#[test]
fn all_numbers_arrive() {
    let (last, random) = (stub::pick("Last"), stub::pick("Random"));
    assert_eq!(
        asked_by(|| {
            let mut builder = Queue::builder(3);
            builder
                .k(40)
                .pick(Pick::Random)
                .seed(SEED)
                .refill(30)
                .balance(u32::MAX)
                .open()
        }),
        [3, 40, random, SEED, 30, u32::MAX.into()]
    );
    assert_eq!(
        asked_by(|| Queue::builder(5).k(7).pick(Pick::Last).refill(0).balance(0).open()),
        [5, 7, last, 0, 0, 0]
    );
}

/// The numbers of klsm.h.
fn default(name: &str) -> u64 {
    let words = format!("#define KLSM_DEFAULT_{name} ");
    let (_, rest) = include_str!("../../../../include/klsm.h")
        .split_once(&words)
        .unwrap();
    rest.lines().next().unwrap().parse().unwrap()
}

#[test]
fn what_is_not_named_is_the_default() {
    let (k, refill, balance) = (default("K"), default("REFILL"), default("BALANCE"));
    let first = stub::pick("First");
    assert_eq!(Pick::default(), Pick::First);
    let expected = [4, k, first, 0, refill, balance];
    assert_eq!(asked_by(|| Queue::new(4)), expected);
    assert_eq!(asked_by(|| Queue::builder(4).open()), expected);
    for k in [0, 1, 15, 16, 17, 1_024] {
        let expected = [4, k, first, 0, k.min(refill), balance];
        assert_eq!(
            asked_by(|| Queue::builder(4).k(k as usize).open()),
            expected
        );
    }
    assert_eq!(
        asked_by(|| Queue::builder(4).refill(0).open()),
        [4, k, first, 0, 0, balance]
    );
    assert_eq!(
        asked_by(|| Queue::builder(4).k(8).refill(9).open()),
        [4, 8, first, 0, 8, balance]
    );
}

#[test]
fn each_code_is_its_own_error() {
    for (name, code) in stub::codes() {
        let expected = match name {
            "OK" => continue,
            "BAD_COUNT" => "BadThreads".to_string(),
            "BAD_K" => "BadK".to_string(),
            "NO_MEMORY" => "NoMemory".to_string(),
            _ => stub::never("klsm_open_with_balance", code),
        };
        stub::answer_code(Call::OpenWithBalance, 0, code);
        assert_eq!(stub::said(|| Queue::new(2).unwrap_err()), expected);
        assert_eq!((stub::queues(), stub::asked(Call::Drop)), (0, 0));
        stub::answer_code(Call::OpenWithBalance, 0, code);
        assert_eq!(
            stub::said(|| Queue::builder(2).open().unwrap_err()),
            expected
        );
        assert_eq!((stub::queues(), stub::asked(Call::Drop)), (0, 0));
    }
}

#[test]
fn another_version_is_refused() {
    for version in [0, 1, 3, u32::MAX] {
        stub::begin();
        stub::answer(Call::Abi, version.into());
        let refused = Some(OpenError::Version {
            found: version,
            expected: stub::abi(),
        });
        assert_eq!(Queue::new(2).err(), refused);
        assert_eq!(Queue::builder(2).open().err(), refused);
        assert_eq!(stub::asked(Call::Abi), 2);
        assert_eq!(
            stub::asked(Call::OpenWithBalance) + stub::asked(Call::Drop),
            0
        );
    }
    stub::begin();
    stub::answer(Call::Abi, stub::abi().into());
    assert!(Queue::new(2).is_ok());
}
