//! The numbers of the header, as the C compiler reads them, are those of the second implementation
//! and those of docs/FORMATS.md.

mod document;
mod library;

use document::{row_of, rows};
use reference::layout;
use reference::numbers::*;
use std::collections::{BTreeMap, BTreeSet};
use std::fs;

const PREFIX: &str = "WARBLEHAY_";

/// What documents 01 and 02 return, from a call or in an answer.
fn outcomes() -> Vec<(&'static str, u64)> {
    use refusal::*;
    Vec::from([
        ("WORKED_THROUGH", ACCEPTED),
        ("SITE_LENGTH", SITE_LENGTH),
        ("SITE_FIELD", SITE_FIELD),
        ("SITE_TWICE", SITE_TWICE),
        ("SITE_MISSING", SITE_MISSING),
        ("STATE_LENGTH", STATE_LENGTH),
        ("STATE_FORM", STATE_FORM),
        ("REFUSED_FORM", ENTRY_FIELD),
        ("REFUSED_NO_OBJECT", ENTRY_MISSING),
        ("REFUSED_COUNT", ENTRY_COUNT),
        ("JOURNAL_LENGTH", JOURNAL_LENGTH),
        ("ANSWERS_LENGTH", ANSWERS_LENGTH),
        ("NOT_TWENTY_SIX_BITS", RAW_BITS),
    ])
    .into_iter()
    .map(|(name, number)| (name, number.into()))
    .collect()
}

fn sizes_and_times() -> Vec<(&'static str, u64)> {
    Vec::from([
        ("NONE", NONE.into()),
        ("NEVER", NEVER.into()),
        ("UNLIMITED", UNLIMITED.into()),
        ("LARGEST_COUNT", MOST_COUNT.into()),
        ("RECORD_SIZE", RECORD_LENGTH as u64),
        ("ENTRY_SIZE", ENTRY_LENGTH as u64),
        ("ANSWER_SIZE", ANSWER_LENGTH as u64),
        ("LARGEST_SITE", MOST_SITE_BYTES as u64),
        ("LARGEST_JOURNAL", MOST_JOURNAL_BYTES as u64),
        ("MINUTES_OF_DAY", MINUTES_PER_DAY.into()),
        ("WIEGAND26_BITS", WIEGAND26_BITS.into()),
        // The reference has no name for it.
        ("NOWHERE", u64::MAX),
    ])
}

fn fields() -> Vec<(&'static str, u64)> {
    Vec::from([
        ("ACCESS_ZONE", kind::ZONE),
        ("ACCESS_POINT", kind::POINT),
        ("ACCESS_RULE", kind::RULE),
        ("ACCESS_CREDENTIAL", kind::CREDENTIAL),
        ("AUTHENTICATION_FACTOR", kind::FACTOR),
        ("LOCATION_EVERYWHERE", location_kind::UNSPECIFIED),
        ("LOCATION_ZONE", location_kind::ZONE),
        ("LOCATION_POINT", location_kind::POINT),
        ("ROLE_IDENTIFYING", factor_role::IDENTIFYING),
        ("ROLE_CONFIRMING", factor_role::CONFIRMING),
        ("PASSBACK_OFF", passback_mode::PASSBACK_OFF),
        ("PASSBACK_HARD", passback_mode::HARD_PASSBACK),
        ("PASSBACK_SOFT", passback_mode::SOFT_PASSBACK),
        ("MODE_AUTHORIZE", authorization_mode::AUTHORIZE),
        ("MODE_GRANT_ACTIVE", authorization_mode::GRANT_ACTIVE),
        ("MODE_DENY_ALL", authorization_mode::DENY_ALL),
        ("ONE_FACTOR", factors_wanted::ONE),
        ("TWO_FACTORS", factors_wanted::TWO),
        ("DISABLE_NONE", credential_disable::NONE),
        ("DISABLE_DISABLED", credential_disable::DISABLE),
        ("DISABLE_MANUAL", credential_disable::DISABLE_MANUAL),
        ("DISABLE_LOCKOUT", credential_disable::DISABLE_LOCKOUT),
        ("FACTOR_DISABLE_NONE", factor_disable::NONE),
        ("FACTOR_DISABLED", factor_disable::DISABLED),
        ("FACTOR_LOST", factor_disable::DISABLED_LOST),
        ("FACTOR_STOLEN", factor_disable::DISABLED_STOLEN),
        ("FACTOR_DAMAGED", factor_disable::DISABLED_DAMAGED),
        ("FACTOR_DESTROYED", factor_disable::DISABLED_DESTROYED),
        ("LARGEST_THREAT", MOST_THREAT_LEVEL),
        ("FORMAT_UNDEFINED", format::UNDEFINED),
        ("FORMAT_ERROR", format::ERROR),
        ("FORMAT_WIEGAND26", format::WIEGAND26),
    ])
    .into_iter()
    .map(|(name, number)| (name, number.into()))
    .collect()
}

fn operations_and_marks() -> Vec<(&'static str, u64)> {
    Vec::from([
        ("OPERATION_FACTOR", operation::READ_FACTOR),
        ("OPERATION_SET_COUNT", operation::SET_COUNT),
        ("OPERATION_ADJUST_COUNT", operation::ADJUST_COUNT),
        ("OPERATION_SET_DISABLE", operation::SET_DISABLE),
        ("OPERATION_SET_SERVICE", operation::SET_LOCKOUT),
        // The reference reads this argument as a flag.
        ("ARGUMENT_UNLOCK", false.into()),
        ("ARGUMENT_LOCK", true.into()),
        ("NOT_REFUSED", refusal::ACCEPTED),
        ("MARK_FACTOR_READ", mark::AUTHENTICATION_FACTOR_READ),
        ("MARK_TRACE", mark::TRACE),
        ("MARK_PASSBACK_DETECTED", mark::PASSBACK_DETECTED),
        ("MARK_MUSTER", mark::MUSTER),
        ("MARK_LOCKOUT_MAX_ATTEMPTS", mark::LOCKOUT_MAX_ATTEMPTS),
        ("MARK_EXTENDED_UNLOCK", mark::EXTENDED_PULSE_UNLOCK),
        ("MARK_LOCKOUT_RELINQUISHED", mark::LOCKOUT_RELINQUISHED),
    ])
    .into_iter()
    .map(|(name, number)| (name, number.into()))
    .collect()
}

fn site_offsets() -> Vec<(&'static str, usize)> {
    use layout::{credential, factor, point, record, rule, zone};
    Vec::from([
        ("KIND", record::KIND),
        ("FLAGS", record::FLAGS),
        ("INSTANCE", record::INSTANCE),
        ("ZONE_PASSBACK", zone::PASSBACK_MODE),
        ("ZONE_UPPER_LIMIT", zone::OCCUPANCY_UPPER_LIMIT),
        ("ZONE_LOWER_LIMIT", zone::OCCUPANCY_LOWER_LIMIT),
        ("ZONE_PASSBACK_TIMEOUT", zone::PASSBACK_TIMEOUT),
        ("POINT_MODE", point::AUTHORIZATION_MODE),
        ("POINT_FACTORS_WANTED", point::FACTORS_WANTED),
        ("POINT_ZONE_TO", point::ZONE_TO),
        ("POINT_ZONE_FROM", point::ZONE_FROM),
        ("POINT_THREAT_LEVEL", point::THREAT_LEVEL),
        ("POINT_MOST_FAILURES", point::MAX_FAILED_ATTEMPTS),
        ("POINT_FACTOR_TIMEOUT", point::FACTOR_TIMEOUT),
        ("POINT_LOCKOUT_RELINQUISH", point::LOCKOUT_RELINQUISH_TIME),
        ("POINT_FAILURE_WINDOW", point::FAILED_ATTEMPTS_TIME),
        ("RULE_LOCATION_KIND", rule::LOCATION_KIND),
        ("RULE_DAYS", rule::DAYS),
        ("RULE_LOCATION", rule::LOCATION),
        ("RULE_FROM", rule::FROM),
        ("RULE_TO", rule::TO),
        ("CREDENTIAL_DISABLE", credential::CREDENTIAL_DISABLE),
        ("CREDENTIAL_THREAT_AUTHORITY", credential::THREAT_AUTHORITY),
        ("CREDENTIAL_ACTIVATION", credential::ACTIVATION_TIME),
        ("CREDENTIAL_EXPIRY", credential::EXPIRY_TIME),
        ("CREDENTIAL_USES", credential::USES_REMAINING),
        ("CREDENTIAL_DAYS", credential::DAYS_REMAINING),
        ("CREDENTIAL_ABSENTEE_DAYS", credential::ABSENTEE_LIMIT),
        ("CREDENTIAL_MOST_WRONG_TRIES", credential::MOST_WRONG_TRIES),
        ("CREDENTIAL_FIRST_RIGHTS", credential::FIRST_RIGHTS),
        ("CREDENTIAL_SECOND_RIGHTS", credential::SECOND_RIGHTS),
        ("FACTOR_ROLE", factor::ROLE),
        ("FACTOR_DISABLE", factor::DISABLE),
        ("FACTOR_FORMAT", factor::FORMAT),
        ("FACTOR_VALUE", factor::VALUE),
    ])
}

fn other_offsets() -> Vec<(&'static str, usize)> {
    use layout::{answer, credential_state, entry, point_state, zone_state};
    Vec::from([
        ("ZONE_STATE_COUNT", zone_state::OCCUPANCY_COUNT),
        ("POINT_STATE_TAG", point_state::ACCESS_EVENT_TAG),
        ("POINT_STATE_FAILURES", point_state::FAILED_ATTEMPTS),
        ("POINT_STATE_LOCKED", point_state::LOCKOUT),
        ("POINT_STATE_LOCK_TIME", point_state::LOCK_TIME),
        ("POINT_STATE_FIRST_FAILURE", point_state::FIRST_FAILURE),
        ("POINT_STATE_WAITING_CREDENTIAL", point_state::WAITING_CREDENTIAL),
        ("POINT_STATE_WAITING_SINCE", point_state::WAITING_SINCE),
        ("CREDENTIAL_STATE_USES", credential_state::USES_REMAINING),
        ("CREDENTIAL_STATE_DAYS", credential_state::DAYS_REMAINING),
        ("CREDENTIAL_STATE_LAST_USE", credential_state::LAST_USE_TIME),
        ("CREDENTIAL_STATE_ZONE", credential_state::ZONE),
        ("CREDENTIAL_STATE_ENTERED", credential_state::ENTERED),
        ("CREDENTIAL_STATE_LAST_EVENT", credential_state::LAST_ACCESS_EVENT),
        ("CREDENTIAL_STATE_DISABLE", credential_state::CREDENTIAL_DISABLE),
        ("CREDENTIAL_STATE_LAST_POINT", credential_state::LAST_ACCESS_POINT),
        ("CREDENTIAL_STATE_WRONG_TRIES", credential_state::WRONG_TRIES),
        ("CREDENTIAL_STATE_LAST_GRANT", credential_state::LAST_GRANT_TIME),
        ("ENTRY_OPERATION", entry::OPERATION),
        ("ENTRY_ARGUMENT", entry::ARGUMENT),
        ("ENTRY_TIME", entry::TIME),
        ("ENTRY_INSTANCE", entry::INSTANCE),
        ("ENTRY_AMOUNT", entry::AMOUNT),
        ("ENTRY_VALUE", entry::VALUE),
        ("ANSWER_EVENT", answer::EVENT),
        ("ANSWER_MARKS", answer::MARKS),
        ("ANSWER_REFUSAL", answer::REFUSAL),
        ("ANSWER_TAG", answer::TAG),
        ("ANSWER_CREDENTIAL", answer::CREDENTIAL),
        ("ANSWER_COUNT", answer::COUNT),
    ])
}

/// A flag is the number of its bit; the reference has its worth.
fn flags() -> Vec<(&'static str, u64)> {
    Vec::from([
        ("ZONE_FLAG_COUNTING", zone_flag::OCCUPANCY_COUNT_ENABLE),
        ("POINT_FLAG_OUT_OF_SERVICE", point_flag::OUT_OF_SERVICE),
        ("POINT_FLAG_UPPER_ENFORCED", point_flag::OCCUPANCY_UPPER_LIMIT_ENFORCED),
        ("POINT_FLAG_LOWER_ENFORCED", point_flag::OCCUPANCY_LOWER_LIMIT_ENFORCED),
        ("POINT_FLAG_COUNT_ADJUST", point_flag::OCCUPANCY_COUNT_ADJUST),
        ("POINT_FLAG_MUSTER", point_flag::MUSTER_POINT),
        ("RULE_FLAG_ENABLED", rule_flag::ENABLE),
        ("RULE_FLAG_NEGATIVE", rule_flag::NEGATIVE),
        ("RULE_FLAG_ALWAYS", rule_flag::ALWAYS),
        ("RULE_FLAG_EVERYWHERE", rule_flag::EVERYWHERE),
        ("CREDENTIAL_FLAG_MASTER", credential_flag::MASTER_EXEMPTION),
        ("CREDENTIAL_FLAG_PASSBACK_EXEMPT", credential_flag::PASSBACK_EXEMPTION),
        ("CREDENTIAL_FLAG_OCCUPANCY_EXEMPT", credential_flag::OCCUPANCY_EXEMPTION),
        ("CREDENTIAL_FLAG_TRACE", credential_flag::TRACE_FLAG),
        ("CREDENTIAL_FLAG_EXTENDED_TIME", credential_flag::EXTENDED_TIME_ENABLE),
        // The reference has no names for the days; they are the bits of a rule's days, in order.
        ("RULE_DAY_MONDAY", 1),
        ("RULE_DAY_TUESDAY", 2),
        ("RULE_DAY_WEDNESDAY", 4),
        ("RULE_DAY_THURSDAY", 8),
        ("RULE_DAY_FRIDAY", 16),
        ("RULE_DAY_SATURDAY", 32),
        ("RULE_DAY_SUNDAY", 64),
    ])
    .into_iter()
    .map(|(name, worth): (_, u8)| (name, worth.trailing_zeros().into()))
    .collect()
}

/// The events have the same names on both sides, but for the one that is none.
macro_rules! events {
    ($($name:ident)*) => {
        Vec::from([("NO_EVENT", event::NONE.into()), $((stringify!($name), event::$name.into())),*])
    };
}

fn events() -> Vec<(&'static str, u64)> {
    events! {
        GRANTED LOCKOUT_OTHER LOCKOUT_RELINQUISHED DENIED_DENY_ALL DENIED_UNKNOWN_CREDENTIAL
        DENIED_AUTHENTICATION_FACTOR_TIMEOUT DENIED_INCORRECT_AUTHENTICATION_FACTOR
        DENIED_ZONE_NO_ACCESS_RIGHTS DENIED_POINT_NO_ACCESS_RIGHTS DENIED_NO_ACCESS_RIGHTS
        DENIED_OUT_OF_TIME_RANGE DENIED_THREAT_LEVEL DENIED_PASSBACK DENIED_LOWER_OCCUPANCY_LIMIT
        DENIED_UPPER_OCCUPANCY_LIMIT DENIED_AUTHENTICATION_FACTOR_LOST
        DENIED_AUTHENTICATION_FACTOR_STOLEN DENIED_AUTHENTICATION_FACTOR_DAMAGED
        DENIED_AUTHENTICATION_FACTOR_DESTROYED DENIED_AUTHENTICATION_FACTOR_DISABLED
        DENIED_AUTHENTICATION_FACTOR_ERROR DENIED_CREDENTIAL_NOT_YET_ACTIVE
        DENIED_CREDENTIAL_EXPIRED DENIED_CREDENTIAL_MANUAL_DISABLE DENIED_CREDENTIAL_LOCKOUT
        DENIED_CREDENTIAL_MAX_DAYS DENIED_CREDENTIAL_MAX_USES DENIED_CREDENTIAL_INACTIVITY
        DENIED_CREDENTIAL_DISABLED DENIED_LOCKOUT DENIED_OTHER
    }
}

fn numbers() -> Vec<(&'static str, u64)> {
    let offsets = [site_offsets(), other_offsets()].concat();
    let offsets = offsets.into_iter().map(|(name, offset)| (name, offset as u64)).collect();
    [
        outcomes(),
        sizes_and_times(),
        fields(),
        operations_and_marks(),
        offsets,
        flags(),
        events(),
    ]
    .concat()
}

fn header() -> String {
    fs::read_to_string(library::directory().join("warblehay.h")).expect("the header is there")
}

/// The numbers that the header defines, by name without the prefix. Its guard is no number.
fn defined(header: &str) -> BTreeMap<String, u64> {
    header
        .lines()
        .filter_map(|line| line.strip_prefix("#define ")?.split_once(' '))
        .map(|(name, literal)| {
            let name = name.strip_prefix(PREFIX).expect("the prefix");
            let digits = literal.split(['(', ')']).nth(1).expect("a literal");
            (name.to_string(), digits.parse().expect("a number"))
        })
        .collect()
}

/// A number that is new in the header is to be compared too.
#[test]
fn every_number_is_compared() {
    let compared: BTreeSet<&str> = numbers().into_iter().map(|(name, _)| name).collect();
    let defined = defined(&header());
    assert_eq!(
        BTreeSet::from_iter(defined.keys().map(String::as_str)),
        compared
    );
}

/// Both ways: a number that is missing on one side is noticed, and so is one that differs.
#[test]
fn numbers_are_those_of_the_document() {
    let rows = rows("Name");
    let documented: BTreeMap<String, u64> = rows
        .iter()
        .map(|row| (row.name().to_string(), row.value()))
        .collect();
    assert_eq!(documented.len(), rows.len(), "a name stands twice");
    assert_eq!(defined(&header()), documented);
}

/// A bit's worth is beside it.
#[test]
fn the_worth_of_bits_is_documented() {
    let bits = rows("Bit");
    assert_eq!(bits.len(), flags().len());
    for row in bits {
        assert_eq!(
            row.number("Worth"),
            1 << row.number("Bit"),
            "{}",
            row.name()
        );
    }
}

/// Every event, refusal, mark and number that a call returns has its sentence, and all but marks say what to look at.
#[test]
fn every_answer_is_explained() {
    let mut names: Vec<&str> = [outcomes(), events()]
        .concat()
        .into_iter()
        .map(|(name, _)| name)
        .collect();
    names.push("NOT_REFUSED");
    for name in names {
        let row = row_of(name);
        for title in ["When", "What to look at"] {
            assert!(
                row.cell(title).is_some_and(|cell| !cell.is_empty()),
                "{title} of {name}"
            );
        }
    }
    let marks = operations_and_marks();
    for (name, _) in marks
        .into_iter()
        .filter(|(name, _)| name.starts_with("MARK_"))
    {
        assert!(
            row_of(name)
                .cell("When")
                .is_some_and(|cell| !cell.is_empty()),
            "{name}"
        );
    }
}

#[test]
fn numbers_are_those_of_the_reference() {
    let mut source = String::from("#include \"warblehay.h\"\n");
    for (name, number) in numbers() {
        source += &format!("_Static_assert({PREFIX}{name} == {number}u, \"{name}\");\n");
    }
    let file = library::scratch("header").join("numbers.c");
    fs::write(&file, source).expect("the C file is written");
    library::assert_succeeds(library::compiler().arg("-fsyntax-only").arg(file));
}

/// A C file that is compiled against the header, which passes or fails with a message.
fn compiled(name: &str, source: &str) -> Result<(), String> {
    let file = library::scratch("header").join(name);
    fs::write(&file, source).expect("the C file is written");
    let mut compiler = library::compiler();
    let output = compiler.arg("-fsyntax-only").arg(file).output();
    let output = output.expect("the compiler starts");
    if output.status.success() {
        return Ok(());
    }
    Err(String::from_utf8_lossy(&output.stderr).into_owned())
}

/// A caller of before took the place in the site for the place in the state too: it does not compile unchanged.
#[test]
fn a_lookup_asks_for_the_offset_in_the_state() {
    for object in ["zone", "point", "credential"] {
        let call = |asked: &str| {
            format!(
                "#include \"warblehay.h\"\n\
                 size_t place(const uint8_t *site, size_t length);\n\
                 size_t place(const uint8_t *site, size_t length)\n\
                 {{\n    size_t offset;\n    (void)&offset;\n    \
                 return warblehay_place_of_{object}(site, length, 5{asked});\n}}\n"
            )
        };
        assert_eq!(compiled("asked.c", &call(", &offset")), Ok(()));
        let message = compiled("unchanged.c", &call("")).expect_err("too few arguments");
        assert!(message.contains("too few arguments"), "{message}");
    }
}

#[test]
fn every_outcome_of_the_papers_has_a_name() {
    let numbers: Vec<u64> = outcomes().into_iter().map(|(_, number)| number).collect();
    assert_eq!(numbers, Vec::from_iter((0..=11).chain([17])));
}
