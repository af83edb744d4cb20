//! Readers' bits beside the reference.

use plain::wiegand::{read_wiegand26, write_wiegand26};
use plain::HASHED;
use reference::scenarios::readers::from_reader_to_door;
use reference::{settings, wiegand};

const CASES: usize = 100_000;

#[test]
fn cards_and_any_bits() {
    let mut random = settings::random();
    for _ in 0..settings::cases(CASES) {
        let (facility, card) = (random.byte(), random.number16());
        let written = write_wiegand26(facility, card);
        assert_eq!(written, wiegand::write_wiegand26(facility, card));
        let written = u64::from(written);
        let changed = written ^ 1 << random.below(64);
        for number in [written, changed, random.number64() >> 38] {
            for count in [26, random.below(30) as u32] {
                let expected = wiegand::read_wiegand26(number, count);
                assert_eq!(read_wiegand26(number, count), expected);
            }
        }
    }
}

#[test]
fn from_the_reader_to_the_door() {
    from_reader_to_door(HASHED, read_wiegand26);
}
