//! Raw 26-bit readers. The numbers expected are written out in binary: the first parity bit, the
//! facility, the card number, the last parity bit. The card number is cut where the halves meet, so
//! that the ones of each half can be counted: even in the first three groups, odd in the last two.

#![allow(clippy::unusual_byte_groupings)]

use reference::engine::REFERENCE;
use reference::scenarios::readers::from_reader_to_door;
use reference::wiegand::{read_wiegand26, write_wiegand26, Factor};

/// Facility, card number and bits.
const CARDS: [(u8, u16, u64); 36] = [
    (131, 77, 0b1_10000011_0000_000001001101_1),
    (0, 0, 0b0_00000000_0000_000000000000_1),
    (255, 0, 0b0_11111111_0000_000000000000_1),
    (0, 65_535, 0b0_00000000_1111_111111111111_1),
    (255, 65_535, 0b0_11111111_1111_111111111111_1),
    (0, 1, 0b0_00000000_0000_000000000001_0),
    (1, 0, 0b1_00000001_0000_000000000000_1),
    (1, 1, 0b1_00000001_0000_000000000001_0),
    (128, 32_768, 0b0_10000000_1000_000000000000_1),
    (128, 0, 0b1_10000000_0000_000000000000_1),
    (0, 32_768, 0b1_00000000_1000_000000000000_1),
    (0, 4_096, 0b1_00000000_0001_000000000000_1),
    (0, 4_095, 0b0_00000000_0000_111111111111_1),
    (0, 2_048, 0b0_00000000_0000_100000000000_0),
    (85, 21_845, 0b0_01010101_0101_010101010101_1),
    (170, 43_690, 0b0_10101010_1010_101010101010_1),
    (85, 43_690, 0b0_01010101_1010_101010101010_1),
    (170, 21_845, 0b0_10101010_0101_010101010101_1),
    (15, 3_855, 0b0_00001111_0000_111100001111_1),
    (240, 61_680, 0b0_11110000_1111_000011110000_1),
    (127, 32_767, 0b0_01111111_0111_111111111111_1),
    (254, 65_534, 0b1_11111110_1111_111111111110_0),
    (2, 12_345, 0b1_00000010_0011_000000111001_1),
    (12, 54_321, 0b1_00001100_1101_010000110001_1),
    (100, 1_000, 0b1_01100100_0000_001111101000_1),
    (200, 40_000, 0b1_11001000_1001_110001000000_0),
    (103, 26_890, 0b1_01100111_0110_100100001010_1),
    (221, 7_439, 0b1_11011101_0001_110100001111_0),
    (65, 62_554, 0b0_01000001_1111_010001011010_0),
    (21, 22_494, 0b1_00010101_0101_011111011110_0),
    (219, 31_778, 0b1_11011011_0111_110000100010_1),
    (209, 26_469, 0b0_11010001_0110_011101100101_0),
    (14, 29_134, 0b0_00001110_0111_000111001110_1),
    (73, 16_962, 0b0_01001001_0100_001001000010_0),
    (110, 63_331, 0b1_01101110_1111_011101100011_0),
    (199, 47_746, 0b0_11000111_1011_101010000010_1),
];

const READ_ERROR: Factor = Factor {
    format: 1,
    value: [0; 8],
};

/// A factor of the format WIEGAND26 with these octets.
fn good(octets: [u8; 3]) -> Result<Factor, u8> {
    let [first, second, third] = octets;
    Ok(Factor {
        format: 8,
        value: [0, 0, 0, 0, 0, first, second, third],
    })
}

#[test]
fn the_card_of_document_002_gives_its_octets() {
    let bits = 0b1_10000011_0000_000001001101_1;
    assert_eq!(read_wiegand26(bits, 26), good([0x83, 0x00, 0x4D]));
    assert_eq!(write_wiegand26(131, 77), 0b1_10000011_0000_000001001101_1);
}

#[test]
fn the_least_and_the_greatest_facility_and_card() {
    for (bits, octets) in [
        (0b0_00000000_0000_000000000000_1, [0x00, 0x00, 0x00]),
        (0b0_11111111_0000_000000000000_1, [0xFF, 0x00, 0x00]),
        (0b0_00000000_1111_111111111111_1, [0x00, 0xFF, 0xFF]),
        (0b0_11111111_1111_111111111111_1, [0xFF, 0xFF, 0xFF]),
    ] {
        assert_eq!(read_wiegand26(bits, 26), good(octets));
    }
    assert_eq!(write_wiegand26(0, 0), 0b0_00000000_0000_000000000000_1);
    assert_eq!(write_wiegand26(255, 0), 0b0_11111111_0000_000000000000_1);
    assert_eq!(write_wiegand26(0, 65_535), 0b0_00000000_1111_111111111111_1);
    assert_eq!(
        write_wiegand26(255, 65_535),
        0b0_11111111_1111_111111111111_1
    );
}

#[test]
fn cards_are_written_and_read_as_worked_out() {
    for (facility, card, bits) in CARDS {
        let [high, low] = card.to_be_bytes();
        assert_eq!(read_wiegand26(bits, 26), good([facility, high, low]));
        assert_eq!(u64::from(write_wiegand26(facility, card)), bits);
    }
}

#[test]
fn counts_and_numbers_that_are_not_26_bits_are_turned_away() {
    // All ones: 13 in each half, odd in both.
    assert_eq!(read_wiegand26(67_108_863, 26), Ok(READ_ERROR));
    for count in [25, 27] {
        assert_eq!(read_wiegand26(67_108_863, count), Err(17));
    }
    for count in [25, 26, 27] {
        assert_eq!(read_wiegand26(67_108_864, count), Err(17));
    }
}

/// Neither a count nor a number is cut to the bits that would be good.
#[test]
fn good_bits_with_more_above_them_or_another_count_are_turned_away() {
    let bits = 0b1_10000011_0000_000001001101_1;
    // Among them, counts whose lowest byte, or lowest two, are 26.
    for count in [0, 1, 25, 27, 256 + 26, 65_536 + 26, u32::MAX] {
        assert_eq!(read_wiegand26(bits, count), Err(17), "count {count}");
    }
    for place in 26..64 {
        let number = bits | 1 << place;
        assert_eq!(read_wiegand26(number, 26), Err(17), "place {place}");
    }
    assert_eq!(read_wiegand26(u64::MAX, 26), Err(17));
}

/// What is turned away is not looked at for parity.
#[test]
fn wrong_parity_with_another_count_is_turned_away() {
    let bits = 0b0_10000011_0000_000001001101_0;
    for count in [25, 27] {
        assert_eq!(read_wiegand26(bits, count), Err(17));
    }
}

#[test]
fn wrong_parity_of_either_half_or_of_both_is_a_read_error() {
    for bits in [
        0b0_10000011_0000_000001001101_1,
        0b1_10000011_0000_000001001101_0,
        0b0_10000011_0000_000001001101_0,
        // No ones: even in both halves.
        0b0_00000000_0000_000000000000_0,
    ] {
        assert_eq!(read_wiegand26(bits, 26), Ok(READ_ERROR), "{bits:026b}");
    }
}

#[test]
fn one_flipped_bit_is_a_read_error_at_each_place() {
    for (_, _, bits) in CARDS {
        for place in 0..26 {
            let flipped = bits ^ (1 << place);
            let read = read_wiegand26(flipped, 26);
            assert_eq!(read, Ok(READ_ERROR), "{bits:026b} at {place}");
        }
    }
}

/// Parity misses them; the request asks for one flipped bit only.
#[test]
fn two_flipped_bits_in_one_half_are_not_noticed() {
    // Of facility 131 and card 77: the first parity bit and the lowest bit of the facility.
    let bits = 0b0_10000010_0000_000001001101_1;
    assert_eq!(read_wiegand26(bits, 26), good([130, 0, 77]));
    // The two lowest bits of the card number.
    let bits = 0b1_10000011_0000_000001001110_1;
    assert_eq!(read_wiegand26(bits, 26), good([131, 0, 78]));
    // Facility and card number, on both sides of the border between them.
    let bits = 0b1_10000010_1000_000001001101_1;
    assert_eq!(read_wiegand26(bits, 26), good([130, 128, 77]));
}

#[test]
fn two_flipped_bits_in_different_halves_are_a_read_error() {
    // The lowest bits of the facility and of the card number.
    let bits = 0b1_10000010_0000_000001001100_1;
    assert_eq!(read_wiegand26(bits, 26), Ok(READ_ERROR));
    // The two bits of the card number where the halves meet.
    let bits = 0b1_10000011_0001_100001001101_1;
    assert_eq!(read_wiegand26(bits, 26), Ok(READ_ERROR));
    for (_, _, bits) in CARDS {
        for first in 13..26 {
            for last in 0..13 {
                let flipped = bits ^ (1 << first) ^ (1 << last);
                assert_eq!(read_wiegand26(flipped, 26), Ok(READ_ERROR));
            }
        }
    }
}

#[test]
fn every_facility_and_card_written_is_read_back() {
    for facility in 0..=255 {
        for card in 0..=65_535 {
            let bits = u64::from(write_wiegand26(facility, card));
            let [high, low] = card.to_be_bytes();
            assert_eq!(read_wiegand26(bits, 26), good([facility, high, low]));
        }
    }
}

#[test]
fn from_reader_to_door_through_this_crate() {
    from_reader_to_door(REFERENCE, read_wiegand26);
}
