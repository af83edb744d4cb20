//! The named scenarios with what they must give, run through any engine. Those of `readers` also
//! take a decoder of bits, so they are not of the list below.

pub mod day_passes;
pub mod field_sheet;
pub mod long_rules;
pub mod midnight;
pub mod misreadings;
pub mod paper_cases;
pub mod readers;
pub mod standby;
mod week;
pub mod wrong_codes;

/// Declares a test for each scenario, through one engine. Every package that tests an engine has
/// its list from here, so that none leaves a scenario out.
#[macro_export]
macro_rules! test_scenarios {
    ($engine:expr) => {
        $crate::test_scenarios! { $engine, paper_cases:
            the_printed_journal_gives_its_three_lines
            an_input_turned_back_prints_only_its_number
            expiry_equal_to_the_time_grants_and_one_later_denies
            minute_equal_to_from_fits_and_minute_equal_to_to_does_not
            exit_at_count_zero_leaves_zero_and_the_entry_after_it_gives_one
            adjusting_two_by_minus_five_gives_zero
        }
        $crate::test_scenarios! { $engine, misreadings:
            days_do_not_fall_on_every_grant
            a_negative_rule_outside_its_hours_does_not_deny
            factor_timeout_zero_is_unlimited
            passback_timeout_zero_never_ends_a_passback
            a_clock_set_back_does_not_end_a_lockout
        }
        $crate::test_scenarios! { $engine, field_sheet:
            item_1_a_cut_site_and_one_with_a_missing_zone_are_turned_back
            item_2_badge_in_to_the_upper_limit_and_once_more
            item_3_walk_out_past_an_empty_count_then_in
            item_4_set_the_clock_back_an_hour_and_repeat_a_passback
            item_5_editing_the_east_wings_cards_leaves_the_west_wing_as_it_was
            item_5_east_entries_among_the_west_entries_change_no_west_answer
        }
        $crate::test_scenarios! { $engine, midnight:
            a_shift_from_friday_evening_ends_on_saturday_morning
            a_shift_from_sunday_evening_ends_on_monday_morning
            a_shift_holds_to_the_end_of_the_clock
            a_negative_shift_denies_in_both_halves_and_not_between_them
            from_equal_to_to_never_fits
            a_shift_from_1440_is_in_the_next_days_first_hours_alone
            a_shift_to_0_ends_at_midnight
            the_longest_and_the_shortest_shift
            the_clock_set_back_within_a_shift_and_before_it
            hours_beyond_the_day_are_refused_and_those_in_any_order_are_not
            one_shift_is_the_pair_of_rules_that_it_replaces
        }
        $crate::test_scenarios! { $engine, day_passes:
            denied_at_08_00_and_granted_at_10_00_takes_a_day
            granted_twice_on_one_date_takes_one_day
            granted_then_denied_and_granted_on_the_next_date_takes_a_second_day
            a_pass_of_one_day_ends_with_its_first_grant
            the_clock_set_back_a_day_takes_none_and_the_way_forward_takes_one_again
            unlimited_days_never_fall_but_last_grant_is_set
            a_state_with_zeros_takes_no_day_on_day_0_and_one_on_day_1
            inactivity_counts_from_any_use_and_not_from_the_last_grant
            a_congress_guest_with_a_three_day_pass_is_let_in_on_three_days
            the_last_second_of_a_date_and_the_first_of_the_next_take_two_days
            a_state_with_spare_bytes_is_refused_and_one_with_any_last_grant_is_worked
        }
        $crate::test_scenarios! { $engine, wrong_codes:
            wrong_codes_at_two_doors_count_together_and_the_third_locks_the_card_out
            a_code_that_comes_too_late_counts
            a_code_in_the_last_second_is_no_wrong_try
            a_damaged_read_counts_on_the_door_and_not_on_the_card
            a_card_without_a_most_is_counted_nowhere
            a_most_of_one_locks_out_at_once
            a_most_of_255_locks_out_at_the_255th_try
            a_grant_between_begins_the_count_anew
            a_grant_for_the_card_alone_begins_the_count_anew
            a_right_code_that_is_not_granted_leaves_the_count
            a_disabled_code_is_no_wrong_try
            operation_4_zeroes_the_count_whatever_it_sets
            operation_4_with_argument_0_lifts_the_lockout
            a_card_disabled_in_another_way_becomes_locked_out_at_the_most
            the_doors_own_failures_and_window_are_left_alone
            unknown_cards_still_lock_the_door_with_mark_16
            a_locked_door_drops_the_wait_and_counts_no_try
            tries_never_age
            another_card_while_a_code_is_awaited_is_a_wrong_code_of_the_first
            two_cards_at_two_doors_are_counted_each_by_itself
            a_state_is_worked_with_tries_below_the_most_alone
            any_most_is_accepted_and_the_byte_behind_it_is_spare
            one_person_forgets_the_code_while_colleagues_go_in_and_out
            wrong_codes_in_the_east_wing_leave_the_west_wing_as_it_was
        }
        $crate::test_scenarios! { $engine, long_rules:
            the_one_rule_of_a_card_is_found_among_1900
            a_fitting_rule_among_1899_that_differ_in_one_field_grants
            one_negative_rule_among_1899_that_grant_denies_in_its_hours
            many_negative_rules_name_no_place
            one_rule_in_place_among_1899_elsewhere_makes_it_136
            the_same_rule_1900_times_is_the_rule
            rules_of_either_rights_number_are_the_cards
            a_full_campus_lets_each_card_in_on_its_two_days
        }
        $crate::test_scenarios! { $engine, standby:
            the_standby_panel_takes_over_at_any_entry_of_a_day
            the_standby_panel_goes_on_and_hands_back_to_the_installed_one
            a_fresh_state_shortened_is_the_fresh_state
            a_longer_state_is_none_of_the_standby_panels
            the_ways_are_turned_back_for_the_site_then_the_lengths_then_the_form
            a_longer_state_with_a_byte_in_a_rule_or_factor_is_not_shortened
            a_site_of_rules_alone_has_an_empty_state
            a_site_without_rules_and_factors_has_one_form
            three_records_in_every_order_keep_theirs
        }
    };
    ($engine:expr, $group:ident: $($scenario:ident)+) => {
        mod $group {
            $(
                #[test]
                fn $scenario() {
                    $crate::scenarios::$group::$scenario($engine);
                }
            )+
        }
    };
}
