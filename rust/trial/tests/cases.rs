//! What was found by hand and is in no answer of a request, and that the cases show what they are there for.

use trial::cases::guesses::in_turn;
use trial::cases::small::{sheets, EITHER, RULING_OUT, VERIFIED_AND_COVERED};
use trial::cases::twelve::every_name;
use trial::solver::calls::open;
use trial::solver::guess::{reduct, reduct_by, Fate, Objective, Table, REDUCT};
use trial::solver::listing::{Program, Verdict};
use trial::solver::ruling::closure;
use trial::solver::sheet::read;
use trial::solver::stable::stable_sets;
use trial::text::good;

fn program(sheet: &[u8]) -> Program {
    Program::of(&read(sheet).expect("an accepted sheet"))
}

/// The guesses that are verified.
fn verified(program: &Program) -> Vec<u16> {
    let is_verified = |&guess: &u16| matches!(program.verdict(guess), Verdict::Verified { .. });
    (0..1 << program.negations.len()).filter(is_verified).collect()
}

/// Letters as a set of atoms: a is atom 0.
fn set(letters: &str) -> u16 {
    letters.bytes().map(|letter| 1 << (letter - b'a')).sum()
}

#[test]
fn t_and_f() {
    for (text, guess, t, f) in RULING_OUT {
        let program = program(&good(text));
        let closed = closure(&program.program_of(guess), program.atoms);
        assert_eq!((closed.t, closed.f), (set(t), set(f)), "{text}");
    }
}

#[test]
fn verified_guesses() {
    assert_eq!(verified(&program(&good(EITHER))), [0, 3]);
    for text in VERIFIED_AND_COVERED.lines() {
        let sheet = good(text);
        let views = open(&sheet).expect("an accepted sheet").listing().views.len();
        assert!(verified(&program(&sheet)).len() > views, "{text}");
    }
}

#[test]
fn guesses_of_every_name() {
    for (title, sheet) in every_name() {
        let opened = open(&sheet).expect("an accepted sheet");
        assert_eq!(opened.check()[2], 12, "{title}");
        assert!(!opened.listing().counts.contains(&0), "{title}");
    }
}

/// Each of the 32 rules that guess 1 leaves matters.
#[test]
fn rules_that_matter() {
    let program = program(&in_turn());
    let rules = reduct(&program.rules, &program.negations, 1);
    let left = program.rules.iter().skip(1).step_by(2);
    assert_eq!(rules, left.map(|rule| Objective { head: rule[0], ..Objective::default() }).collect::<Vec<_>>());
    let sets = stable_sets(&rules, program.atoms);
    assert_eq!((rules.len(), sets.len()), (32, 5));
    for left_out in 0..32 {
        let mut others = rules.clone();
        others.remove(left_out);
        assert_ne!(stable_sets(&others, program.atoms), sets, "rule {left_out}");
    }
}

/// Whether some verdict is another by another table of the reduct.
fn shows(program: &Program, table: &Table) -> bool {
    (0..1 << program.negations.len()).any(|guess| {
        let mut rules = reduct_by(table, &program.rules, &program.negations, guess);
        rules.extend(&program.constraints);
        program.verdict_by(guess, &stable_sets(&rules, program.atoms)) != program.verdict(guess)
    })
}

/// Each cell of the reduct's table matters: with another fate in it some sheet of few atoms has another verdict.
#[test]
fn cells_that_matter() {
    let programs = sheets().into_iter().map(|(_, sheet)| program(&sheet));
    let programs: Vec<Program> = programs.filter(|one| one.atoms <= 3 && one.negations.len() <= 4).collect();
    for (kind, holds) in (0..4).flat_map(|kind| [(kind, 0), (kind, 1)]) {
        for fate in [Fate::Plain, Fate::Not, Fate::NotNot, Fate::Removed, Fate::Deleted] {
            let mut table = REDUCT;
            table[kind][holds] = fate;
            let shown = programs.iter().any(|program| shows(program, &table));
            assert_eq!(shown, table != REDUCT, "kind {kind}, holds {holds}: {fate:?}");
        }
    }
}
