//! The named scenarios through the proved engine: the papers' cases and misreadings, the field
//! engineer's sheet, long rule lists, shifts that cross midnight, the standby panel, and the way from a
//! reader to the door.

use differential::proved;
use reference::scenarios::readers;

reference::test_scenarios!(differential::proved::PROVED);

#[test]
fn from_reader_to_door() {
    readers::from_reader_to_door(proved::PROVED, proved::read_wiegand26);
}
