//! The calls of 26-bit readers, as the package `warblehay` has them. They take no site and are
//! short: a figure is that of many, one after the other.

use differential::proved;
use plain::wiegand;
use reference::generate::Random;
use reference::numbers::{format, WIEGAND26_BITS};
use std::hint::black_box;

/// The shape and the size that the table has for them, and their names.
pub const SHAPE: &str = "readers";
pub const SIZE: usize = 10_000;
pub const READ: &str = "read_wiegand26";
pub const WRITE: &str = "write_wiegand26";

#[derive(Clone, Copy)]
pub enum Engine {
    Proved,
    Plain,
}

pub const ENGINES: [(&str, Engine); 2] = [("proved", Engine::Proved), ("plain", Engine::Plain)];

/// A call with what it is made on.
pub enum Call {
    /// Numbers and counts.
    Read(Vec<(u64, u32)>),
    /// Facilities and cards.
    Write(Vec<(u8, u16)>),
}

pub fn calls() -> [Call; 2] {
    let mut random = Random::new(1);
    let cards = (0..SIZE).map(|_| (random.byte(), random.number16()));
    let cards: Vec<(u8, u16)> = cards.collect();
    let bits = cards.iter().map(|&card| bits(&mut random, card));
    [Call::Read(bits.collect()), Call::Write(cards)]
}

/// The bits of a card: half of them good, most others with a wrong bit, the rest turned away.
fn bits(random: &mut Random, (facility, card): (u8, u16)) -> (u64, u32) {
    let good = u64::from(wiegand::write_wiegand26(facility, card));
    match random.below(16) {
        0 => (good, random.below(26) as u32),
        1 => (good | 1 << (26 + random.below(38)), WIEGAND26_BITS),
        2..8 => (good ^ 1 << random.below(26), WIEGAND26_BITS),
        _ => (good, WIEGAND26_BITS),
    }
}

impl Call {
    pub fn name(&self) -> &'static str {
        match self {
            Call::Read(_) => READ,
            Call::Write(_) => WRITE,
        }
    }

    /// All calls of one engine.
    pub fn make(&self, engine: Engine) {
        match (self, engine) {
            (Call::Read(bits), Engine::Proved) => each(bits, warblehay::read_wiegand26),
            (Call::Read(bits), Engine::Plain) => each(bits, wiegand::read_wiegand26),
            (Call::Write(cards), Engine::Proved) => each(cards, warblehay::write_wiegand26),
            (Call::Write(cards), Engine::Plain) => each(cards, wiegand::write_wiegand26),
        }
    }

    /// Panics unless the engines make the same of all, and good factors where they are meant.
    pub fn assert_agreed(&self) {
        match self {
            Call::Read(bits) => {
                let mut good = 0;
                for &(number, count) in bits {
                    let factor = proved::read_wiegand26(number, count);
                    assert_eq!(factor, wiegand::read_wiegand26(number, count));
                    let is_good = factor.is_ok_and(|it| it.format == format::WIEGAND26);
                    good += usize::from(is_good);
                }
                assert!(good >= SIZE / 3, "{good} good factors");
            }
            Call::Write(cards) => {
                for &(facility, card) in cards {
                    let number = warblehay::write_wiegand26(facility, card);
                    assert_eq!(number, wiegand::write_wiegand26(facility, card));
                }
            }
        }
    }
}

/// Makes a call on each of the inputs. The compiler does not know which call, so that it inlines
/// none, as it cannot inline the library's.
fn each<A: Copy, B: Copy, T>(inputs: &[(A, B)], call: fn(A, B) -> T) {
    let call = black_box(call);
    for &(a, b) in inputs {
        black_box(call(a, b));
    }
}

#[cfg(test)]
mod tests {
    use super::*;

    /// What the benchmark asserts, also where nobody runs it.
    #[test]
    fn the_engines_agree_on_readers_bits() {
        for call in calls() {
            call.assert_agreed();
        }
    }
}
