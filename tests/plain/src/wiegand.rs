//! Raw 26-bit readers (job 12 of document 02).

use reference::numbers::{format, refusal, VALUE_LENGTH, WIEGAND26_BITS, WIEGAND26_NUMBERS};
use reference::wiegand::Factor;

/// Facility and card, without the parity bits.
const PAIR: u64 = 0x00FF_FFFF;
/// The bits of the last half, and those of them that are of the card.
const LAST_HALF: u32 = 0x1FFF;
const LAST_OF_CARD: u32 = 0x0FFF;

pub fn read_wiegand26(number: u64, count: u32) -> Result<Factor, u8> {
    if count != WIEGAND26_BITS || number >= WIEGAND26_NUMBERS {
        return Err(refusal::RAW_BITS);
    }
    let bits = number as u32;
    if is_odd(bits >> 13) || !is_odd(bits & LAST_HALF) {
        return Ok(Factor {
            format: format::ERROR,
            value: [0; VALUE_LENGTH],
        });
    }
    Ok(Factor {
        format: format::WIEGAND26,
        value: (number >> 1 & PAIR).to_be_bytes(),
    })
}

pub fn write_wiegand26(facility: u8, card: u16) -> u32 {
    let pair = u32::from(facility) << 16 | u32::from(card);
    let first = u32::from(is_odd(pair >> 12));
    let last = u32::from(!is_odd(pair & LAST_OF_CARD));
    first << 25 | pair << 1 | last
}

fn is_odd(bits: u32) -> bool {
    bits.count_ones() % 2 == 1
}
