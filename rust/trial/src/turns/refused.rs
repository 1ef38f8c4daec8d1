//! Wrong ways to refuse a call, before it runs and after.

use super::{all_views, by_rounds, first_refused, short, told, Call, Refused, Way, RIGHT};
use crate::solver::listing::View;
use crate::solver::sharing::Test;

/// A right way but for the refusal before the run.
const fn refusing(before: fn(&Call) -> Option<Refused>) -> Way {
    Way { before, ..RIGHT }
}

/// A right way but for the refusal after the run.
const fn fitting(after: fn(&Call, &[Vec<View>]) -> Option<Refused>) -> Way {
    Way { after, ..RIGHT }
}

pub const WRONG: [(&str, Way); 16] = [
    ("14 after the sheets", refusing(|call| first_refused(call).or(told(call)))),
    (
        "more than four sheets accepted",
        refusing(|call| told(call).filter(|_| call.sharing.told == 0).or(first_refused(call))),
    ),
    ("no sheet accepted", refusing(|call| told(call).filter(|_| call.sharing.told > 0).or(first_refused(call)))),
    (
        "14 with the number of sheets",
        refusing(|call| told(call).map(|_| [14, call.sharing.told.into(), 0]).or(first_refused(call))),
    ),
    (
        "positions from 1",
        refusing(|call| {
            told(call).or(first_refused(call).map(|[number, place, position]| [number, place, position + 1]))
        }),
    ),
    (
        "the last bad sheet",
        refusing(|call| told(call).or_else(|| call.positions().rev().find_map(|position| call.refusal(position)))),
    ),
    (
        "7 after the bytes of all sheets",
        refusing(|call| {
            let found = || call.positions().filter_map(|position| call.refusal(position));
            told(call).or_else(|| found().find(|refused| refused[0] != 7)).or_else(|| found().next())
        }),
    ),
    (
        "9 of a sheet before the next is read",
        refusing(|call| {
            let own = |position| call.refusal(position).or_else(|| short(call, position, reached(call, position)));
            told(call).or_else(|| call.positions().find_map(own))
        }),
    ),
    (
        "9 by the views of the whole listing",
        fitting(|call, _| call.positions().find_map(|position| short(call, position, all_views(call, position).len()))),
    ),
    (
        "9 with the views of the whole listing",
        fitting(|call, views| {
            let all =
                |[number, _, position]: Refused| [number, all_views(call, position as usize).len() as u32, position];
            (RIGHT.after)(call, views).map(all)
        }),
    ),
    (
        "9 with the words",
        fitting(|call, views| {
            (RIGHT.after)(call, views).map(|[number, views, position]| [number, 4 * views, position])
        }),
    ),
    (
        "9 of the last sheet",
        fitting(|call, views| call.positions().rev().find_map(|position| short(call, position, views[position].len()))),
    ),
    ("9 in the turn in which a view doesn't fit", fitting(in_turn)),
    (
        "9 where the records fit exactly",
        fitting(|call, views| {
            let fills = |i: &usize| !views[*i].is_empty() && 4 * views[*i].len() >= call.cells(*i);
            call.positions().find(fills).map(|i| [9, views[i].len() as u32, i as u32])
        }),
    ),
    (
        "9 by all buffers together",
        fitting(|call, views| {
            let (views, cells): (Vec<usize>, Vec<usize>) =
                call.positions().map(|i| (views[i].len(), call.cells(i))).unzip();
            let is_short = 4 * views.iter().sum::<usize>() > cells.iter().sum();
            is_short.then(|| [9, views.iter().sum::<usize>() as u32, 0])
        }),
    ),
    ("records that fit are written by a refused call", Way { writes: true, ..RIGHT }),
];

/// How many views a sheet has reached at the end, the refused ones having no tests.
fn reached(call: &Call, position: usize) -> usize {
    let tests = |i: usize| if call.sheets[i].is_ok() { (RIGHT.tests)(call, i) } else { vec![] };
    let all: Vec<usize> = call.positions().map(|i| tests(i).len()).collect();
    (RIGHT.met)(&tests(position), by_rounds(&all, call.allowance as usize)[position]).len()
}

/// The run ends with the first view that doesn't fit.
fn in_turn(call: &Call, _: &[Vec<View>]) -> Option<Refused> {
    let tests: Vec<Vec<Test>> = call.positions().map(|position| (RIGHT.tests)(call, position)).collect();
    let all: Vec<usize> = tests.iter().map(Vec::len).collect();
    let most = all.iter().sum::<usize>().min(call.allowance as usize);
    (0..=most).find_map(|allowance| {
        let had = by_rounds(&all, allowance);
        call.positions().find_map(|i| short(call, i, (RIGHT.met)(&tests[i], had[i]).len()))
    })
}
