//! Each fault alone does what it is called.

use crate::support::{refusal, rising, with_channels};
use reference::damage::{damaged, BYTE_FAULTS, FAULTS};
use reference::random::Generator;
use reference::record::{Record, MAX_BYTES};
use std::collections::BTreeSet;

/// Six vertices, some edges and channels of which no two can be joined.
fn sound() -> Record {
    let record = with_channels(6, &rising(4, 5), &[&[0, 1, 3], &[2], &[4], &[5]]);
    assert_eq!(record.check(), Ok(()));
    record
}

/// The refusals met when the fault is done to a sound record many times.
fn refusals(fault: impl Fn(&mut Generator) -> Vec<u8>) -> Vec<u8> {
    let mut generator = Generator::new(41);
    let met: BTreeSet<u8> = (0..400).map(|_| refusal(&fault(&mut generator))).collect();
    met.into_iter().collect()
}

#[test]
fn faults_in_what_a_record_says_have_their_refusals() {
    // In the order of the list: sizes, ends, doubles, rings, edges, channels (repeats first), floors.
    let expected: [&[u8]; 19] = [
        &[2],
        &[2],
        &[0, 2, 3],
        &[3],
        &[4],
        &[5],
        &[4, 5],
        &[2],
        &[6],
        &[6],
        &[6],
        &[7],
        &[7],
        &[3],
        &[1],
        &[12],
        &[12],
        &[12],
        &[12],
    ];
    for (number, (fault, expected)) in FAULTS.iter().zip(expected).enumerate() {
        let met = refusals(|generator| {
            let mut record = sound();
            fault(&mut record, generator);
            record.to_bytes()
        });
        assert_eq!(met, expected, "{number}");
    }
}

/// The refusals met with one of the faults in the bytes.
fn byte_refusals(number: usize) -> Vec<u8> {
    refusals(|generator| {
        let mut bytes = sound().to_bytes();
        BYTE_FAULTS[number](&mut bytes, generator);
        bytes
    })
}

#[test]
fn faults_of_other_kinds_do_not_hide_behind_floors() {
    // Where vertices are fewer there are too many floors; any other fault is told as without floors.
    let floors = || sound().with_floors(vec![0, 9, 0, 1, 127, 0]);
    assert_eq!(floors().check(), Ok(()));
    let fewer = refusals(|generator| {
        let mut record = floors();
        FAULTS[2](&mut record, generator);
        record.to_bytes()
    });
    assert_eq!(fewer, [0, 2, 12]);
    for (number, expected) in [(3, 3), (4, 4), (5, 5), (8, 6), (11, 7)] {
        let met = refusals(|generator| {
            let mut record = floors();
            FAULTS[number](&mut record, generator);
            record.to_bytes()
        });
        assert_eq!(met, [expected], "{number}");
    }
}

#[test]
fn faults_in_the_bytes_have_their_refusals() {
    // A record cut after its edges, or without its channels, or with its old tag, is sound; with the
    // tag of floors its channels are too many floors.
    let expected: [(usize, &[u8]); 12] = [
        (0, &[0, 1]),
        (1, &[1]),
        (4, &[1]),
        (5, &[1]),
        (6, &[0, 1, 12]),
        (7, &[1]),
        (8, &[0, 1]),
        (9, &[1]),
        (10, &[0, 1]),
        (11, &[1, 6, 12]),
        (12, &[1]),
        (13, &[1]),
    ];
    for (number, expected) in expected {
        assert_eq!(byte_refusals(number), expected, "{number}");
    }
}

#[test]
fn a_changed_bit_or_byte_can_give_almost_any_refusal() {
    for number in [2, 3] {
        let met = byte_refusals(number);
        assert!(met.len() > 5, "{number} {met:?}");
    }
}

#[test]
fn an_oversized_record_is_at_the_limit_or_one_byte_over() {
    let mut generator = Generator::new(42);
    let mut lengths = BTreeSet::new();
    for _ in 0..20 {
        let mut bytes = sound().to_bytes();
        BYTE_FAULTS[11](&mut bytes, &mut generator);
        let over = bytes.len() > MAX_BYTES;
        let expected: &[u8] = if over { &[1] } else { &[6, 12] };
        assert!(expected.contains(&refusal(&bytes)));
        lengths.insert(bytes.len());
    }
    assert!(lengths.into_iter().eq([MAX_BYTES, MAX_BYTES + 1]));
}

#[test]
fn faults_on_faults_never_stop_the_generator() {
    let mut generator = Generator::new(43);
    let mut met = BTreeSet::new();
    for _ in 0..300 {
        let mut record = sound();
        for _ in 0..5 {
            generator.pick(&FAULTS).expect("a fault")(&mut record, &mut generator);
        }
        let mut bytes = damaged(record, &mut generator);
        for _ in 0..10 {
            generator.pick(&BYTE_FAULTS).expect("a fault")(&mut bytes, &mut generator);
        }
        met.insert(refusal(&bytes));
    }
    assert!(met.contains(&1), "{met:?}");
}
