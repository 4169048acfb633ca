//! Holds the library, through its C door, against the reference: both make the same calls on the same
//! inputs, and every cell that was lent is compared after each, whether it worked or was refused.

mod across;
mod case;
mod flaw;
mod found;
mod host;
mod imitated;
mod levels;
mod options;
mod plain;
mod radio;
mod records;
mod slots;
mod stream;
mod tally;
mod text;
mod transfer;
mod twist;
mod whole;
mod why;

use across::{Theme, FRAMES_CUT, SINGLE, SYNCS_CUT};
use case::{made, Call, Case, Draw, Part};
use differential::{both, cells, lent, model, random};
use flaw::Flaw;
use found::{Found, CLEAR};
use lent::Guards;
use options::{Options, USAGE};
use random::Random;
use records::{Builder, Fresh, Host, Layout, Status, StreamFresh};
use std::process::ExitCode;
use tally::Tally;
use whole::AT_ONCE;

/// A difference, with the name of the call.
type Differs = (&'static str, String);

/// One case: its number among those of its kind, what it is drawn from, and where it is counted.
struct Run<'a> {
    number: usize,
    random: Random,
    guards: Guards,
    tally: &'a mut Tally,
    /// Where the frames that it lays across joins are counted.
    theme: Option<&'static Theme>,
}

/// The call's line of the table, and those of the parts that are chosen.
fn lines<T>(call: Call, parts: &[Part<T>], chosen: impl Fn(&Part<T>) -> bool) -> Vec<Call> {
    let parts = parts.iter().filter(|part| chosen(part));
    let lines = parts.map(|part| part.line);
    std::iter::once(call).chain(lines).collect()
}

fn single<C: Case>(run: Run) -> Result<(), Differs> {
    let case = made::<C>(run.number, run.random);
    let lines = lines(C::CALL, C::PARTS, |part| (part.holds)(&case));
    let flaw = case.flaw();
    let differs = |difference| (C::CALL.name, difference);
    let returned = case.compare(&run.guards).map_err(differs)?;
    Flaw::check(flaw, returned).map_err(differs)?;
    run.tally.count(&lines, returned);
    if let Some(flaw) = flaw {
        run.tally.count_flaw(C::CALL.name, flaw);
    }
    Ok(())
}

/// A single feeding with a frame across the join.
fn across(run: Run) -> Result<(), Differs> {
    let mut draw = Draw {
        random: run.random,
        turn: run.number,
    };
    let (feed, reading) = stream::Feed::across(&mut draw);
    let returned = feed.compare(&run.guards);
    let returned = returned.and_then(|returned| reading.check(returned));
    let returned = returned.map_err(|difference| (stream::Feed::CALL.name, difference))?;
    run.tally.count(&[stream::Feed::CALL], returned);
    run.tally.count_across(run.theme, &reading.across);
    Ok(())
}

/// The readings around clear places, and the good frames that were not handed out.
fn count_found(tally: &mut Tally, found: &Found) {
    for clear in &found.clear {
        let lines = lines(plain::Read::CALL, CLEAR, |part| (part.holds)(clear));
        tally.count(&lines, clear.up_to);
        tally.count(&[plain::Read::CALL], clear.behind);
    }
    tally.count_lost(&found.lost);
}

fn whole(run: Run, stream: whole::Stream) -> Result<(), Differs> {
    let mut draw = Draw {
        random: run.random,
        turn: run.number,
    };
    let ran = stream(&mut draw, &run.guards);
    let ran = ran.map_err(|difference| (stream::Feed::CALL.name, difference))?;
    for returned in ran.returned {
        run.tally.count(&[stream::Feed::CALL], returned);
    }
    let at_once = ran.at_once;
    let lines = lines(plain::Read::CALL, AT_ONCE, |part| (part.holds)(&at_once));
    run.tally.count(&lines, at_once.returned);
    count_found(run.tally, &ran.found);
    run.tally.wholes += 1;
    run.tally.demanded += u64::from(ran.demanded);
    run.tally.promised += u64::from(ran.found.speaks && !ran.demanded);
    run.tally.count_across(run.theme, &ran.across);
    Ok(())
}

fn count_told(tally: &mut Tally, told: &why::Told) {
    let lines = lines(why::Ask::CALL, why::TOLD, |part| (part.holds)(told));
    tally.count(&lines, told.returned);
}

/// One byte asked of, or now and then every byte of an input.
fn why(run: Run) -> Result<(), Differs> {
    let differs = |difference| (why::Ask::CALL.name, difference);
    let (turn, rest) = (run.number / why::WHOLE_EVERY, run.number % why::WHOLE_EVERY);
    if rest > 0 {
        let case = made::<why::Ask>(run.number, run.random);
        let told = case.told(&run.guards).map_err(differs)?;
        count_told(run.tally, &told);
        return Ok(());
    }
    let mut draw = Draw {
        random: run.random,
        turn,
    };
    let whole = why::every_byte(&mut draw, &run.guards).map_err(differs)?;
    let lines = lines(plain::Read::CALL, why::WHOLE, |part| (part.holds)(&whole));
    run.tally.count(&lines, whole.returned);
    let told = whole.told.iter();
    told.for_each(|told| count_told(run.tally, told));
    Ok(())
}

struct Kind {
    run: fn(Run) -> Result<(), Differs>,
    lines: fn() -> Vec<Call>,
    flaws: fn() -> Vec<(&'static str, Flaw)>,
    theme: Option<&'static Theme>,
    /// How many cases of this kind stand in one round.
    share: usize,
}

const fn kind<C: Case>(share: usize) -> Kind {
    Kind {
        run: single::<C>,
        lines: || lines(C::CALL, C::PARTS, |_| true),
        flaws: || {
            C::flaws()
                .into_iter()
                .map(|flaw| (C::CALL.name, flaw))
                .collect()
        },
        theme: None,
        share,
    }
}

const KINDS: &[Kind] = &[
    kind::<Layout>(4),
    kind::<Fresh<Status>>(2),
    kind::<radio::Read>(30),
    kind::<transfer::Transfer>(30),
    kind::<radio::Write>(30),
    kind::<Fresh<Host>>(2),
    kind::<host::Read>(20),
    kind::<Fresh<Builder>>(2),
    kind::<host::Build>(20),
    kind::<StreamFresh>(2),
    kind::<stream::Sound>(12),
    kind::<stream::Feed>(30),
    kind::<plain::Read>(10),
    // Some forty calls each.
    Kind {
        run: |run| whole(run, whole::run_any),
        lines: || lines(plain::Read::CALL, AT_ONCE, |_| true),
        ..kind::<plain::Read>(1)
    },
    // Some twenty calls each.
    Kind {
        run: |run| whole(run, whole::run_imitated),
        lines: || lines(plain::Read::CALL, CLEAR, |_| true),
        ..kind::<plain::Read>(1)
    },
    // Some sixty calls each.
    Kind {
        run: |run| whole(run, whole::run),
        ..kind::<stream::Feed>(1)
    },
    Kind {
        run: across,
        theme: Some(&SINGLE),
        ..kind::<stream::Feed>(26)
    },
    // Some four calls each.
    Kind {
        run: |run| whole(run, whole::run_in_syncs),
        theme: Some(&SYNCS_CUT),
        ..kind::<stream::Feed>(2)
    },
    Kind {
        run: |run| whole(run, whole::run_in_frames),
        theme: Some(&FRAMES_CUT),
        ..kind::<stream::Feed>(2)
    },
    // One in so many is some thousand calls.
    Kind {
        run: why,
        lines: || {
            let of_whole = lines(plain::Read::CALL, why::WHOLE, |_| true);
            [of_whole, lines(why::Ask::CALL, why::TOLD, |_| true)].concat()
        },
        ..kind::<why::Ask>(10)
    },
];

/// The kind of a case, and its number among those of its kind.
fn kind_of(case: usize) -> (&'static Kind, usize) {
    let round: usize = KINDS.iter().map(|kind| kind.share).sum();
    let mut place = case % round;
    for kind in KINDS {
        match place.checked_sub(kind.share) {
            Some(later) => place = later,
            None => return (kind, case / round * kind.share + place),
        }
    }
    unreachable!("the place is within the round")
}

fn run(case: usize, options: &Options, tally: &mut Tally) -> Result<(), Differs> {
    let (kind, number) = kind_of(case);
    let exact = options.short && case % 2 == 1;
    (kind.run)(Run {
        number,
        random: Random::of_case(options.seed, case as u64),
        guards: if exact {
            Guards::none()
        } else {
            Guards::around(case)
        },
        tally,
        theme: kind.theme,
    })
}

fn main() -> ExitCode {
    let Some(options) = Options::from(std::env::args().skip(1)) else {
        eprintln!("{USAGE}");
        return ExitCode::from(2);
    };
    let lines = KINDS.iter().flat_map(|kind| (kind.lines)());
    let flaws = KINDS.iter().flat_map(|kind| (kind.flaws)());
    let themes = KINDS.iter().filter_map(|kind| kind.theme);
    let mut tally = Tally::of(lines, flaws, themes);
    let mut cases = options.case.map_or(0..usize::MAX, |case| case..case + 1);
    while let Some(case) = cases.next().filter(|_| tally.calls < options.calls) {
        if let Err((call, difference)) = run(case, &options, &mut tally) {
            let (seed, calls) = (options.seed, tally.calls);
            eprintln!("{call}: seed {seed}, case {case}, after {calls} calls: {difference}");
            return ExitCode::FAILURE;
        }
    }
    println!("{tally}");
    if options.case.is_some() {
        return ExitCode::SUCCESS;
    }
    let faults = tally.faults();
    for fault in &faults {
        eprintln!("{fault}");
    }
    ExitCode::from(u8::from(!faults.is_empty()))
}
