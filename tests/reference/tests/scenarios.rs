//! The named scenarios through this crate's engine.

reference::test_scenarios!(reference::engine::REFERENCE);

/// A scenario that the list lacks would never run.
#[test]
fn every_scenario_is_listed() {
    let listed = include_str!("../src/scenarios/mod.rs");
    for text in [
        include_str!("../src/scenarios/day_passes.rs"),
        include_str!("../src/scenarios/field_sheet.rs"),
        include_str!("../src/scenarios/long_rules.rs"),
        include_str!("../src/scenarios/midnight.rs"),
        include_str!("../src/scenarios/misreadings.rs"),
        include_str!("../src/scenarios/paper_cases.rs"),
        include_str!("../src/scenarios/standby.rs"),
        include_str!("../src/scenarios/wrong_codes.rs"),
    ] {
        let starts = text.lines().filter_map(|line| line.strip_prefix("pub fn "));
        let scenarios = starts.filter_map(|start| start.strip_suffix("(engine: Engine) {"));
        let scenarios: Vec<&str> = scenarios.collect();
        assert!(!scenarios.is_empty(), "no scenario");
        for scenario in scenarios {
            let is_listed = listed.split_whitespace().any(|word| word == scenario);
            assert!(is_listed, "{scenario} is not listed");
        }
    }
}
