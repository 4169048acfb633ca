//! Runs a case, and holds both sides to what was worked out.

use crate::answer::shown;
use crate::call::{After, Argument, Given};
use crate::file::Case;
use differential::lent::Guards;

/// So many cells of a slice are named; the others that differ are counted.
const CELLS_NAMED: usize = 4;

/// What is not as the case says.
pub fn check(case: &Case) -> Vec<String> {
    let given = Given {
        call: case.call,
        cells: &case.given,
        guards: Guards::around(case.line),
    };
    let ran = match (case.call.run)(&given) {
        Ok(ran) => ran,
        Err(text) => return vec![text],
    };
    let mut faults = Vec::new();
    let (library, reference) = (ran.both.library, ran.both.reference);
    if (library, reference) != (case.answer, case.answer) {
        let shown = |returned| shown(case.call, returned);
        faults.push(expected(
            &shown(case.answer),
            &shown(library),
            &shown(reference),
        ));
    }
    let arguments = case.call.arguments.iter();
    for (argument, (given, after)) in arguments.zip(case.given.iter().zip(&case.after)) {
        let left = ran.after.iter().find(|left| left.name == argument.name);
        match left {
            Some(left) => faults.extend(cells(argument, after, left)),
            None if given != after => faults.push(format!("{} cannot change", argument.name)),
            None => {}
        }
    }
    faults
}

fn expected(expected: &str, library: &str, reference: &str) -> String {
    format!("expected {expected}; door {library}; reference {reference}")
}

fn cells(argument: &Argument, after: &[i128], left: &After) -> Vec<String> {
    let both = left.library.iter().zip(&left.reference);
    let all = after.iter().zip(both).enumerate();
    let wrong = all.filter(|(_, (after, both))| *both != (*after, *after));
    let mut faults: Vec<String> = wrong
        .map(|(cell, (after, (library, reference)))| {
            let shown = |value: &i128| argument.kind.shown(*value);
            let (after, library, reference) = (shown(after), shown(library), shown(reference));
            let (name, place) = (argument.name, argument.kind.place(cell));
            format!("{name}{place}: {}", expected(&after, &library, &reference))
        })
        .collect();
    if faults.len() > CELLS_NAMED {
        let more = faults.len() - CELLS_NAMED;
        faults.truncate(CELLS_NAMED);
        faults.push(format!("{}: and {more} cells more", argument.name));
    }
    let stray = left.stray.iter();
    faults.extend(stray.map(|stray| format!("beside what was lent: {stray}")));
    faults
}

#[cfg(test)]
mod tests {
    use super::*;
    use crate::call::{argument, Call, Found, Ran};
    use crate::kind;
    use differential::both::Both;

    static ARGUMENTS: [Argument; 1] = [argument("mic", &kind::I16)];

    /// What is found where a call that should find word 1 and leave 5 and 6 does what `run` does.
    fn faults(run: fn(&Given) -> Result<Ran, String>) -> Vec<String> {
        let call = Box::leak(Box::new(Call {
            name: "made_up",
            arguments: &ARGUMENTS,
            found: Found::Counts(&["word"]),
            run,
        }));
        check(&Case {
            line: 1,
            call,
            title: String::new(),
            given: vec![vec![5, 6]],
            after: vec![vec![5, 6]],
            answer: 0x100,
        })
    }

    type Side = (u64, [i16; 2]);
    const RIGHT: Side = (0x100, [5, 6]);

    fn ran(library: Side, reference: Side, stray: Option<String>) -> Result<Ran, String> {
        let after = After::of("mic", &library.1, &reference.1);
        let (library, reference) = (library.0, reference.0);
        Ok(Ran {
            both: Both { library, reference },
            after: vec![After { stray, ..after }],
        })
    }

    #[test]
    fn both_are_right() {
        assert!(faults(|_| ran(RIGHT, RIGHT, None)).is_empty());
    }

    #[test]
    fn one_of_the_two_is_wrong() {
        let cell = faults(|_| ran((0x100, [5, 7]), RIGHT, None));
        assert_eq!(cell, ["mic[1]: expected 6; door 7; reference 6"]);
        let answer = faults(|_| ran(RIGHT, (0x201, [5, 6]), None));
        let said = "expected answer 0 word 1; door answer 0 word 1; reference answer 1 word 2";
        assert_eq!(answer, [said]);
    }

    #[test]
    fn one_place_is_wrong() {
        let place = faults(|_| ran((0x1FD_0007, [5, 6]), (0x8, [5, 6]), None));
        let said = "expected answer 0 word 1; door answer 7 word 0 byte 509; reference answer 8 word 0 cause 0";
        assert_eq!(place, [said]);
        let beside = faults(|_| ran((0x1_0100, [5, 6]), RIGHT, None));
        let said =
            "expected answer 0 word 1; door answer 0 word 1 and place 1; reference answer 0 word 1";
        assert_eq!(beside, [said]);
    }

    #[test]
    fn a_cell_beside_the_slice_has_changed() {
        let found = faults(|_| ran(RIGHT, RIGHT, Some("mic[-1]".to_owned())));
        assert_eq!(found, ["beside what was lent: mic[-1]"]);
    }
}
