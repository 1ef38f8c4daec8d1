//! Wrong ways to say which guesses are tests, which views are met and which sheets are finished.

use super::{all_views, tests_where, Call, Way, RIGHT};
use crate::solver::listing::{properly_within, Counted, Verdict, View};
use crate::solver::sharing::Test;

/// A right way but for which guesses are tests.
const fn testing(tests: fn(&Call, usize) -> Vec<Test>) -> Way {
    Way { tests, ..RIGHT }
}

pub const WRONG_TESTS: [(&str, Way); 9] = [
    ("a ruled guess is a test", testing(|call, i| tests_where(call, i, |_, counted| counted != Counted::Covered))),
    ("a covered guess is a test", testing(|call, i| tests_where(call, i, |_, counted| counted != Counted::Ruled))),
    ("every guess is a test", testing(|call, i| tests_where(call, i, |_, _| true))),
    (
        "an empty verdict is free",
        testing(|call, i| {
            tests_where(call, i, |_, c| matches!(c, Counted::Tested(verdict) if verdict != Verdict::Empty))
        }),
    ),
    (
        "only a view is a test",
        testing(|call, i| tests_where(call, i, |_, c| matches!(c, Counted::Tested(Verdict::Verified { .. })))),
    ),
    (
        "a view of another sheet covers",
        testing(|call, i| {
            let others: Vec<View> =
                call.positions().filter(|&other| other != i).flat_map(|p| all_views(call, p)).collect();
            let is_covered = |guess| others.iter().any(|view| properly_within(guess, view.guess));
            tests_where(call, i, |guess, counted| matches!(counted, Counted::Tested(_)) && !is_covered(guess))
        }),
    ),
    ("small guesses first", testing(|call, i| (RIGHT.tests)(call, i).into_iter().rev().collect())),
    ("the views of the whole listing", Way { met: |tests, _| tests.iter().copied().flatten().collect(), ..RIGHT }),
    ("as many views as tests", Way { met: |tests, had| tests.iter().copied().flatten().take(had).collect(), ..RIGHT }),
];

/// A right way but for which sheets are finished.
const fn finishing(finished: fn(&Call, &[usize], &[usize]) -> Vec<bool>) -> Way {
    Way { finished, ..RIGHT }
}

pub const WRONG_FINISHED: [(&str, Way); 8] = [
    ("finished only after one more turn", finishing(one_more_turn)),
    (
        "free guesses not passed over with the allowance spent",
        finishing(|call, all, had| {
            let spent = had.iter().sum::<usize>() == call.allowance as usize;
            call.positions().map(|i| had[i] == all[i] && (!spent || !has_free_last(call, i, had[i]))).collect()
        }),
    ),
    (
        "nothing is finished with the allowance spent",
        finishing(|call, all, had| {
            let spent = had.iter().sum::<usize>() == call.allowance as usize;
            call.positions().map(|i| had[i] == all[i] && !spent).collect()
        }),
    ),
    (
        "nothing is finished with allowance zero",
        finishing(|call, all, had| call.positions().map(|i| had[i] == all[i] && call.allowance > 0).collect()),
    ),
    (
        "a sheet without tests is never finished",
        finishing(|_, all, had| all.iter().zip(had).map(|(all, had)| all == had && *had > 0).collect()),
    ),
    (
        "finished when one test is left",
        finishing(|_, all, had| all.iter().zip(had).map(|(all, had)| had + 1 >= *all).collect()),
    ),
    (
        "finished when all views are met",
        finishing(|call, _, had| {
            let met = |i: usize| (RIGHT.met)(&(RIGHT.tests)(call, i), had[i]).len();
            call.positions().map(|i| met(i) == all_views(call, i).len()).collect()
        }),
    ),
    ("finished only when all are", finishing(|call, all, had| vec![all == had; call.sheets.len()])),
];

/// A sheet is found finished in a turn of its own, which comes while some allowance is left and takes none of it.
fn one_more_turn(call: &Call, all: &[usize], _: &[usize]) -> Vec<bool> {
    let (mut had, mut found, mut left) = (vec![0; all.len()], vec![false; all.len()], call.allowance);
    while left > 0 && found.contains(&false) {
        for position in call.positions() {
            match had[position] < all[position] {
                true if left > 0 => (had[position], left) = (had[position] + 1, left - 1),
                false if left > 0 => found[position] = true,
                _ => (),
            }
        }
    }
    found
}

/// Whether a guess stands behind so many tests of a sheet, or behind none any guess.
fn has_free_last(call: &Call, position: usize, had: usize) -> bool {
    let guesses = call.guesses(position);
    let tested = guesses.iter().enumerate().filter(|(_, (_, counted))| matches!(counted, Counted::Tested(_)));
    let behind = tested.map(|(i, _)| i + 1).take(had).last().unwrap_or(0);
    behind < guesses.len()
}
