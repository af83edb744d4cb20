//! The calls of 26-bit readers: on every facility and card and on every number, beside plain Rust;
//! on any numbers and counts, beside the second implementation.

use plain::wiegand as plain;
use reference::generate::Random;
use reference::{settings, wiegand};
use std::collections::BTreeMap;
use std::ops::Range;
use warblehay::{read_wiegand26, write_wiegand26, Factor, TurnedBack};

/// How many pairs of facility and card there are, and how many numbers of 26 bits.
const PAIRS: u32 = 16_777_216;
const NUMBERS: u32 = 67_108_864;

/// Places of bits, the last bit having place 0.
const PLACES: Range<u32> = 0..26;
const FIRST_HALF: Range<u32> = 13..26;
const LAST_HALF: Range<u32> = 0..13;

const READ_ERROR: Factor = Factor {
    format: 1,
    value: [0; 8],
};

fn good(facility: u8, card: u16) -> Factor {
    let [high, low] = card.to_be_bytes();
    Factor {
        format: 8,
        value: [0, 0, 0, 0, 0, facility, high, low],
    }
}

/// The facility and the card in the last 24 bits.
fn pair(bits: u32) -> (u8, u16) {
    ((bits >> 16) as u8, bits as u16)
}

/// What an implementation makes of bits, as the package says it.
fn outcome(made: Result<wiegand::Factor, u8>) -> Result<Factor, u32> {
    let as_in_package = |wiegand::Factor { format, value }| Factor { format, value };
    made.map(as_in_package).map_err(u32::from)
}

/// What the library makes of 26 bits, and plain Rust too.
fn read(number: u32) -> Factor {
    let factor = read_wiegand26(number.into(), 26).expect("26 bits are not turned away");
    let expected = outcome(plain::read_wiegand26(number.into(), 26));
    assert_eq!(Ok(factor), expected, "{number:026b}");
    factor
}

/// The bits that the library writes, and plain Rust too.
fn write(facility: u8, card: u16) -> u32 {
    let number = write_wiegand26(facility, card);
    let expected = plain::write_wiegand26(facility, card);
    assert_eq!(number, expected, "{facility} {card}");
    number
}

#[test]
fn every_pair_is_read_back_and_each_changed_bit_of_it_is_found() {
    for (facility, card) in (0..PAIRS).map(pair) {
        let number = write(facility, card);
        assert_eq!(read(number), good(facility, card));
        for place in PLACES {
            assert_eq!(read(number ^ 1 << place), READ_ERROR);
        }
    }
}

/// A pair is read from the one number that is written for it, and from no other.
#[test]
fn every_number_is_an_error_or_that_of_a_pair() {
    let mut pairs = 0;
    for number in 0..NUMBERS {
        let factor = read(number);
        if factor != READ_ERROR {
            let [.., facility, high, low] = factor.value;
            assert_eq!(write(facility, u16::from_be_bytes([high, low])), number);
            pairs += 1;
        }
    }
    assert_eq!(pairs, PAIRS);
}

/// The bits of some pairs.
fn written() -> impl Iterator<Item = u32> {
    let mut random = settings::random();
    (0..1_000).map(move |_| write(random.byte(), random.number16()))
}

#[test]
fn two_changed_bits_in_different_halves_are_found() {
    for number in written() {
        for first in FIRST_HALF {
            for last in LAST_HALF {
                assert_eq!(read(number ^ 1 << first ^ 1 << last), READ_ERROR);
            }
        }
    }
}

/// Parity finds no more: they are another card.
#[test]
fn two_changed_bits_in_one_half_are_not_found() {
    for number in written() {
        for half in [FIRST_HALF, LAST_HALF] {
            for one in half.clone() {
                for other in half.start..one {
                    let factor = read(number ^ 1 << one ^ 1 << other);
                    assert_eq!(factor.format, 8);
                    assert_ne!(factor, read(number));
                }
            }
        }
    }
}

/// What the library makes of any bits, and the second implementation too.
fn agreed(number: u64, count: u32) -> Result<Factor, u32> {
    let made = read_wiegand26(number, count).map_err(TurnedBack::number);
    let expected = outcome(wiegand::read_wiegand26(number, count));
    assert_eq!(made, expected, "{number} of {count} bits");
    made
}

/// Counts other than 26, some of them 26 in their lowest bytes.
const OTHER_COUNTS: [u32; 7] = [0, 1, 25, 27, 256 + 26, 65_536 + 26, u32::MAX];

/// Neither the count nor the number is cut to what would be good.
#[test]
fn what_is_not_26_bits_is_turned_away() {
    let card = u64::from(write(131, 77));
    let most = u64::from(NUMBERS - 1);
    for count in OTHER_COUNTS {
        for number in [0, card, card ^ 1, most, most + 1] {
            assert_eq!(agreed(number, count), Err(17));
        }
    }
    for place in 26..64 {
        for number in [card, 0] {
            assert_eq!(agreed(number | 1 << place, 26), Err(17));
        }
    }
    assert_eq!(agreed(u64::MAX, 26), Err(17));
    // The largest number is all ones, an odd number in the first half.
    assert_eq!(agreed(most, 26), Ok(READ_ERROR));
    assert_eq!(agreed(card, 26), Ok(good(131, 77)));
}

fn random_count(random: &mut Random) -> u32 {
    match random.below(8) {
        0 => random.pick(&OTHER_COUNTS),
        1 => random.number32(),
        2 => random.below(65) as u32,
        _ => 26,
    }
}

fn random_number(random: &mut Random) -> u64 {
    let (facility, card) = (random.byte(), random.number16());
    let written = write(facility, card);
    assert_eq!(written, wiegand::write_wiegand26(facility, card));
    let written = u64::from(written);
    match random.below(8) {
        0 => random.number64(),
        1 => random.number64() >> random.below(64),
        2 => u64::from(NUMBERS) - 8 + random.below(16) as u64,
        3 => written | 1 << (26 + random.below(38)),
        4 => written ^ 1 << random.below(26),
        5 => random.below(NUMBERS as usize) as u64,
        _ => written,
    }
}

const CASES: usize = 200_000;

#[test]
fn random_numbers_and_counts() {
    let cases = settings::cases(CASES);
    let mut random = settings::random();
    let mut occurred = BTreeMap::new();
    for _ in 0..cases {
        let (number, count) = (random_number(&mut random), random_count(&mut random));
        let outcome = agreed(number, count).map(|factor| factor.format);
        *occurred.entry(outcome).or_insert(0) += 1;
    }
    settings::print(
        "Readers' bits, formats or refusals",
        format!("{occurred:?}\n"),
    );
    assert!(occurred.keys().eq(&[Ok(1), Ok(8), Err(17)]));
    assert!(occurred.values().all(|&times| times >= cases / 10));
}
