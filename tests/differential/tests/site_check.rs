//! The site check through both engines.

use differential::{compare, settings, small};
use reference::generate::clock::base_time;
use reference::generate::damage::{damage, overlong};
use reference::generate::{large_site, site, Random};
use reference::numbers::{refusal, MOST_SITE_BYTES, RECORD_LENGTH};
use reference::occurrences::Occurrences;

const CASES: usize = 300_000;

/// The refusals that a site can meet.
const SITE_REFUSALS: [u8; 4] = [
    refusal::SITE_LENGTH,
    refusal::SITE_FIELD,
    refusal::SITE_TWICE,
    refusal::SITE_MISSING,
];

/// A site, in most cases with damage, at times bytes that only resemble one.
fn random_site(random: &mut Random) -> Vec<u8> {
    if random.below(32) == 0 {
        return resembling(random);
    }
    let base = base_time(random);
    let mut site = site(random, base);
    for _ in 0..random.pick(&[0, 1, 1, 2, 3]) {
        damage(random, &mut site, RECORD_LENGTH);
    }
    if random.below(500) == 0 {
        overlong(&mut site, RECORD_LENGTH, MOST_SITE_BYTES);
    }
    site
}

/// A few records of bytes that are often in range.
fn resembling(random: &mut Random) -> Vec<u8> {
    let length = RECORD_LENGTH * random.below(4) + random.pick(&[0, 0, 0, 1, 31]);
    let mut bytes: Vec<u8> = (0..length)
        .map(|_| random.pick(&[0, 0, 0, 0, 0, 0, 1, 2, 255]))
        .collect();
    for record in bytes.chunks_mut(RECORD_LENGTH) {
        record[0] = random.below(7) as u8;
    }
    bytes
}

#[test]
fn random_and_damaged_sites() {
    let cases = settings::cases(CASES);
    let mut random = settings::random();
    let mut occurrences = Occurrences::default();
    for _ in 0..cases {
        occurrences.count_call(compare::check_site(random_site(&mut random)));
    }
    settings::print("Site check, random and damaged sites", &occurrences);
    occurrences.assert_refusals(cases / 100, &SITE_REFUSALS);
}

/// Sites of up to 2,000 records, each also with damage, so that twins stand far apart and
/// references far from what is missing.
#[test]
fn large_sites() {
    let mut random = settings::random();
    let mut occurrences = Occurrences::default();
    for round in 0..60 {
        let records = match round % 4 {
            0 => MOST_SITE_BYTES / RECORD_LENGTH,
            _ => 40 + random.below(1_000),
        };
        let base = base_time(&mut random);
        let site = large_site(&mut random, base, records);
        occurrences.count_call(compare::check_site(site.clone()));
        for _ in 0..8 {
            let mut damaged = site.clone();
            damage(&mut random, &mut damaged, RECORD_LENGTH);
            occurrences.count_call(compare::check_site(damaged));
        }
    }
    settings::print("Site check, large sites", &occurrences);
    occurrences.assert_refusals(1, &SITE_REFUSALS);
}

#[test]
fn every_byte_of_small_sites_changed() {
    let mut occurrences = Occurrences::default();
    for site in small::sites() {
        assert_eq!(compare::check_site(site.clone()), refusal::ACCEPTED);
        for changed in small::with_each_byte_changed(&site) {
            occurrences.count_call(compare::check_site(changed));
        }
    }
    settings::print(
        "Site check, every byte of small sites changed",
        &occurrences,
    );
    let of_fields = [
        refusal::SITE_FIELD,
        refusal::SITE_TWICE,
        refusal::SITE_MISSING,
    ];
    occurrences.assert_refusals(10, &of_fields);
}

/// The first bytes of a site, and sites about as long as the longest.
#[test]
fn every_length() {
    let site = small::sites().concat();
    for length in 0..=site.len() {
        compare::check_site(site[..length].to_vec());
    }
    for length in MOST_SITE_BYTES - 40..MOST_SITE_BYTES + 40 {
        compare::check_site(vec![0; length]);
    }
    // Lengths that are small where only two bytes of them are kept.
    for length in [65_536, 65_568, 131_072] {
        let returned = compare::check_site(vec![0; length]);
        assert_eq!(returned, refusal::SITE_LENGTH);
    }
}
