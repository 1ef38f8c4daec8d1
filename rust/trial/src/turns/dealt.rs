//! Wrong ways to deal turns, and to say how many there were.

use super::{by_rounds, rounds, Call, Way, RIGHT};

/// A right way but for how the tests are dealt.
const fn dealing(dealt: fn(&Call, &[usize]) -> Vec<usize>) -> Way {
    Way { dealt, ..RIGHT }
}

pub const WRONG: [(&str, Way); 16] = [
    ("one test past the allowance", dealing(|call, all| by_rounds(all, call.allowance as usize + 1))),
    ("one test less", dealing(|call, all| by_rounds(all, (call.allowance as usize).saturating_sub(1)))),
    ("a sheet run to its end before the next", dealing(|call, all| one_after_the_other(all, call.allowance as usize))),
    ("turns in falling position", dealing(|call, all| reversed(&by_rounds(&reversed(all), call.allowance as usize)))),
    ("finished sheets take turns", dealing(|call, all| split(all, call.allowance as usize))),
    (
        "the allowance divided by the number of sheets",
        dealing(|call, all| all.iter().map(|&own| own.min(call.allowance as usize / all.len())).collect()),
    ),
    (
        "the bound's n by the sheets that have tests",
        dealing(|call, all| {
            let count = all.iter().filter(|&&own| own > 0).count().max(1);
            all.iter().map(|&own| own.min(call.allowance as usize / count)).collect()
        }),
    ),
    (
        "the allowance for each sheet",
        dealing(|call, all| all.iter().map(|&own| own.min(call.allowance as usize)).collect()),
    ),
    ("whole rounds alone", dealing(|call, all| whole_rounds(all, call.allowance as usize))),
    ("the sheet after one that is finished loses its turn", dealing(|call, all| losing(all, call.allowance as usize))),
    ("the second round begins with the second sheet", dealing(|call, all| rotating(all, call.allowance as usize))),
    ("not afresh: after the same call", dealing(|call, all| by_rounds(all, 2 * call.allowance as usize))),
    ("equal sheets tested once", dealing(equal_once)),
    ("the allowance modulo 65,536", dealing(|call, all| by_rounds(all, call.allowance as usize % 65_536))),
    ("the allowance with a sign", dealing(|call, all| by_rounds(all, (call.allowance as i32).max(0) as usize))),
    ("the tests in all are the allowance", Way { total: |call, _| call.allowance as usize, ..RIGHT }),
];

fn reversed(numbers: &[usize]) -> Vec<usize> {
    numbers.iter().rev().copied().collect()
}

fn one_after_the_other(all: &[usize], mut left: usize) -> Vec<usize> {
    let mut take = |own: &usize| {
        let had = left.min(*own);
        left -= had;
        had
    };
    all.iter().map(&mut take).collect()
}

/// Each sheet has its turn in every round, whether it has tests left or not.
fn split(all: &[usize], allowance: usize) -> Vec<usize> {
    let (rounds, left) = (allowance / all.len(), allowance % all.len());
    all.iter().enumerate().map(|(i, &own)| own.min(rounds + usize::from(i < left))).collect()
}

/// No round is begun for which the allowance is too small.
fn whole_rounds(all: &[usize], allowance: usize) -> Vec<usize> {
    all.iter().map(|&own| own.min(rounds(all, allowance).0)).collect()
}

/// Turn by turn, and after a sheet's last test the next sheet is left out.
fn losing(all: &[usize], mut left: usize) -> Vec<usize> {
    let mut had = vec![0; all.len()];
    while left > 0 && had != all {
        let mut position = 0;
        while position < all.len() && left > 0 {
            if had[position] < all[position] {
                had[position] += 1;
                left -= 1;
                position += usize::from(had[position] == all[position]);
            }
            position += 1;
        }
    }
    had
}

/// Turn by turn, each round beginning one position later than the one before.
fn rotating(all: &[usize], mut left: usize) -> Vec<usize> {
    let mut had = vec![0; all.len()];
    let mut start = 0;
    while left > 0 && had != all {
        for position in (0..all.len()).map(|i| (start + i) % all.len()) {
            if left > 0 && had[position] < all[position] {
                had[position] += 1;
                left -= 1;
            }
        }
        start += 1;
    }
    had
}

/// A sheet that equals an earlier one has what that one has, and takes no turn.
fn equal_once(call: &Call, all: &[usize]) -> Vec<usize> {
    let sheets = &call.sharing.sheets;
    let first = |i: usize| sheets.iter().position(|sheet| *sheet == sheets[i]).expect("itself");
    let own: Vec<usize> = all.iter().enumerate().map(|(i, &own)| if first(i) == i { own } else { 0 }).collect();
    let had = by_rounds(&own, call.allowance as usize);
    call.positions().map(|i| had[first(i)]).collect()
}
