//! Raw 26-bit readers: job 12 of document 02, its sentences quoted beside what follows them.

use crate::layout::wiegand26::{CARD, FACILITY, FIRST_HALF, FIRST_PARITY, LAST_HALF, LAST_PARITY};
use crate::numbers::{format, refusal, VALUE_LENGTH, WIEGAND26_BITS, WIEGAND26_NUMBERS};

/// What a reader's bits become: the format and the value of a factor read.
#[derive(Clone, Copy, Debug, PartialEq, Eq)]
pub struct Factor {
    pub format: u8,
    pub value: [u8; VALUE_LENGTH],
}

/// "Older readers hand us 26 bits": the bits one by one, the first bit first.
type Bits = [bool; WIEGAND26_BITS as usize];

/// The factor of a reader's bits, or the number that turns them away. "The bits come as one number,
/// the first bit highest, with their count."
pub fn read_wiegand26(number: u64, count: u32) -> Result<Factor, u8> {
    // "Turned away: 17, for a count that is not 26 or a number of 67,108,864 or more, nothing
    // made." It is tried first, so that the number fits the bits.
    if count != WIEGAND26_BITS || number >= WIEGAND26_NUMBERS {
        return Err(refusal::RAW_BITS);
    }
    let mut bits: Bits = [false; WIEGAND26_BITS as usize];
    put_number(&mut bits, number);

    // "The first 13 bits must have an even number of ones, the last 13 an odd number."
    let good = even_ones(&bits[FIRST_HALF]) && !even_ones(&bits[LAST_HALF]);
    if !good {
        // "... wrong parity becomes format 1 with value zero."
        return Ok(Factor {
            format: format::ERROR,
            value: [0; VALUE_LENGTH],
        });
    }

    // "... a parity bit, 8 bits of facility, 16 of card number, a parity bit."
    let facility = get_number(&bits[FACILITY]) as u8;
    let card = get_number(&bits[CARD]) as u16;

    // "Good bits become a factor of the WIEGAND26 format, its octets as Annex P in 002 lays them
    // down, right-aligned in the eight value bytes": three octets, the first the facility code, the
    // second and third the card number. The parity bits are left out.
    let [card_high, card_low] = card.to_be_bytes();
    Ok(Factor {
        format: format::WIEGAND26,
        value: [0, 0, 0, 0, 0, facility, card_high, card_low],
    })
}

/// "The way back, from facility and card to bits, is wanted too": the bits as one number.
///
/// "Reading back what was so written gives the same facility and card for all 16,777,216 pairs, and
/// changing just one of its 26 bits always yields format 1": every bit lies in one of the halves,
/// and the parity of that half changes with it.
pub fn write_wiegand26(facility: u8, card: u16) -> u32 {
    let mut bits: Bits = [false; WIEGAND26_BITS as usize];
    put_number(&mut bits[FACILITY], u64::from(facility));
    put_number(&mut bits[CARD], u64::from(card));
    // Both parity bits are still zero: each becomes one where its half has the wrong parity.
    bits[FIRST_PARITY] = !even_ones(&bits[FIRST_HALF]);
    bits[LAST_PARITY] = even_ones(&bits[LAST_HALF]);
    get_number(&bits)
}

fn even_ones(bits: &[bool]) -> bool {
    let ones = bits.iter().filter(|&&bit| bit).count();
    ones % 2 == 0
}

/// The number whose highest bit comes first.
fn get_number(bits: &[bool]) -> u32 {
    let mut number = 0;
    for &bit in bits {
        number = 2 * number + u32::from(bit);
    }
    number
}

/// Writes a number that fits the bits, its highest bit first.
fn put_number(bits: &mut [bool], mut number: u64) {
    for bit in bits.iter_mut().rev() {
        *bit = number % 2 == 1;
        number /= 2;
    }
}
