//! Big-endian numbers in arrays. Offsets are constants of the paper, so that none is checked at run
//! time once these are inlined.

use reference::numbers::RECORD_LENGTH;

/// A record of the site or of the state.
pub type Record = [u8; RECORD_LENGTH];

#[inline(always)]
fn part<const N: usize, const LENGTH: usize>(bytes: &[u8; N], at: usize) -> [u8; LENGTH] {
    *bytes[at..]
        .first_chunk()
        .expect("the field is in the array")
}

#[inline(always)]
pub fn get16<const N: usize>(bytes: &[u8; N], at: usize) -> u16 {
    u16::from_be_bytes(part(bytes, at))
}

#[inline(always)]
pub fn get32<const N: usize>(bytes: &[u8; N], at: usize) -> u32 {
    u32::from_be_bytes(part(bytes, at))
}

#[inline(always)]
pub fn get64<const N: usize>(bytes: &[u8; N], at: usize) -> u64 {
    u64::from_be_bytes(part(bytes, at))
}

/// Eight bytes in the machine's order: for tests against zero or another such word.
#[inline(always)]
pub fn word<const N: usize>(bytes: &[u8; N], at: usize) -> u64 {
    u64::from_ne_bytes(part(bytes, at))
}

/// As `word`, of four bytes.
#[inline(always)]
pub fn half<const N: usize>(bytes: &[u8; N], at: usize) -> u32 {
    u32::from_ne_bytes(part(bytes, at))
}

#[inline(always)]
pub fn put16<const N: usize>(bytes: &mut [u8; N], at: usize, number: u16) {
    bytes[at..at + 2].copy_from_slice(&number.to_be_bytes());
}

#[inline(always)]
pub fn put32<const N: usize>(bytes: &mut [u8; N], at: usize, number: u32) {
    bytes[at..at + 4].copy_from_slice(&number.to_be_bytes());
}
