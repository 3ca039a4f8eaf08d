//! The table of rules against the sentences of document 01.

use second::rules::{row_of, Kind, Mode, Rewrites, TABLE};

#[test]
fn rules_are_1_to_14() {
    assert!(row_of(0).is_none() && row_of(15).is_none() && row_of(u32::MAX).is_none());
    for number in 1..=14 {
        let row = row_of(number).expect("a rule");
        assert_eq!(row.rule, TABLE[number as usize - 1].rule);
    }
}

/// "Rule 12 is the nondeterminate rule; the others are determinate."
#[test]
fn rule_12_alone_is_nondeterminate() {
    for (index, row) in TABLE.iter().enumerate() {
        let mode = if index + 1 == 12 {
            Mode::Nondeterminate
        } else {
            Mode::Determinate
        };
        assert_eq!(row.mode, mode);
    }
}

/// The column of places.
#[test]
fn each_rule_takes_its_kind_of_place() {
    let places = [
        Kind::ConstraintAtom,
        Kind::ProgramAtom,
        Kind::Composition,
        Kind::Hiding,
        Kind::Choice,
        Kind::ChoiceBox,
        Kind::GuardedGoal,
        Kind::GuardedGoal,
        Kind::AndBox,
        Kind::ChoiceBox,
        Kind::GuardedGoal,
        Kind::ChoiceBox,
        Kind::GuardedGoal,
        Kind::InnerOrBox,
    ];
    assert_eq!(TABLE.map(|row| row.place), places);
}

/// "A rule rewrites the member (2, 5), the and-box (1, 3, 4, 6, 9, 10, 12), the
/// choice-box (7, 8, 11, 13) or the outer or-box (14)": the goal at its place in
/// 2, 5 and 9, else the one around it.
#[test]
fn each_rule_rewrites_its_goal() {
    for (index, row) in TABLE.iter().enumerate() {
        let own = matches!(index + 1, 2 | 5 | 9);
        let rewrites = if own {
            Rewrites::Place
        } else {
            Rewrites::Parent
        };
        assert_eq!(row.rewrites, rewrites, "rule {}", index + 1);
    }
}
