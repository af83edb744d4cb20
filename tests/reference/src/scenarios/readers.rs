//! From the bits of a reader to the decision at the door, through any engine and any decoder.

// The groups are the fields of the bits; the card number is cut where the halves meet.
#![allow(clippy::unusual_byte_groupings)]

use crate::build::{self, Credential, EntryFields, Panel, Point};
use crate::engine::Engine;
use crate::layout::point_state;
use crate::numbers::{event, format, kind, NONE, WIEGAND26_BITS};
use crate::one_point::open_point;
use crate::wiegand::Factor;

/// Facility 131, card 77: the card that document 002 gives credential 33.
const CARD_BITS: u64 = 0b1_10000011_0000_000001001101_1;
const CARD: [u8; 8] = [0, 0, 0, 0, 0, 0x83, 0x00, 0x4D];

/// Point 1 with three failures at most, and the card.
fn door(engine: Engine) -> Panel {
    Panel::fresh_by(
        engine,
        &[
            Point {
                max_failed_attempts: 3,
                ..open_point()
            }
            .record(),
            Credential::new(33).record(),
            build::Factor {
                format: format::WIEGAND26,
                ..build::Factor::new(33, CARD)
            }
            .record(),
        ],
    )
}

fn failures(panel: &Panel) -> u8 {
    panel.state_of(kind::POINT, 1)[point_state::FAILED_ATTEMPTS]
}

pub fn from_reader_to_door(engine: Engine, read: fn(u64, u32) -> Result<Factor, u8>) {
    let entry = |time: u32, bits: u64| {
        let factor = read(bits, WIEGAND26_BITS).expect("26 bits are not turned away");
        EntryFields::read_factor(time, 1, factor.format, factor.value)
    };
    for place in 0..WIEGAND26_BITS {
        let mut panel = door(engine);
        let good = panel.work(entry(100, CARD_BITS));
        assert_eq!((good.event, good.credential), (event::GRANTED, 33));
        assert_eq!(failures(&panel), 0);

        let flipped = panel.work(entry(110, CARD_BITS ^ (1 << place)));
        let error = event::DENIED_AUTHENTICATION_FACTOR_ERROR;
        assert_eq!((flipped.event, flipped.credential), (error, NONE));
        assert_eq!(failures(&panel), 1, "place {place}");
    }
}
