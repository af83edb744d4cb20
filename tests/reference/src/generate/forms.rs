//! The buffers of the ways between the two forms of a state.

use super::case::damage_state;
use super::clock::base_time;
use super::damage::{damage, in_another_order};
use super::random::Random;
use super::{sites, states};
use crate::longer::shortened;
use crate::numbers::RECORD_LENGTH;

/// A site with a longer state and, apart from that, a state: each holds what one way reads and bytes
/// that the other must overwrite, or leave where it is turned back.
#[derive(Clone, PartialEq)]
pub struct Forms {
    pub site: Vec<u8>,
    pub longer: Vec<u8>,
    pub state: Vec<u8>,
}

/// A site with both forms, in one half of the cases with damage to one or more of the three buffers.
pub fn forms(random: &mut Random) -> Forms {
    let base = base_time(random);
    let site = sites::site(random, base);
    let mut forms = Forms {
        longer: states::longer_state(random, base, &site),
        state: states::state(random, base, &site),
        site,
    };
    if random.sixteenths(8) {
        damage_forms(random, &mut forms);
    }
    forms
}

fn damage_forms(random: &mut Random, forms: &mut Forms) {
    let Forms {
        site,
        longer,
        state,
    } = forms;
    if random.sixteenths(8) {
        damage_longer(random, site, longer);
    }
    if random.sixteenths(8) {
        damage_state(random, site, state);
    }
    // Last, so that it is the states of the site without its damage that do not fit it.
    if random.sixteenths(7) {
        damage(random, site, RECORD_LENGTH);
    }
}

/// Damages a longer state, spoils one record, or makes it one of another length or order.
fn damage_longer(random: &mut Random, site: &[u8], longer: &mut Vec<u8>) {
    match random.below(8) {
        0..=1 => damage(random, longer, RECORD_LENGTH),
        2..=5 => states::spoil_longer(random, site, longer),
        6 => *longer = shortened(site, longer),
        _ => *longer = in_another_order(random, longer, RECORD_LENGTH),
    }
}
