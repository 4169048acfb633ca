//! How many calls were made, how many of each answer came, of each place that a refusal says, of each way that a frame
//! lies across a join, and of each distance at which a good frame is lost.

use crate::across::{Across, Cut, Theme, SYNC_BYTES};
use crate::case::Call;
use crate::flaw::Flaw;
use crate::twist::FRAME;
use std::collections::BTreeMap;
use std::fmt;

const ANSWERS: usize = 10;

struct Line {
    call: Call,
    came: [u64; ANSWERS],
}

#[derive(Default)]
pub struct Tally {
    lines: Vec<Line>,
    /// How often a call was refused for each flaw.
    flaws: BTreeMap<(&'static str, Flaw), u64>,
    /// How often a frame lay so across a join, by the theme.
    across: BTreeMap<(&'static str, Across), u64>,
    /// How often a good frame was not handed out, by how far inside one that was it begins: the last that does.
    lost: BTreeMap<usize, u64>,
    pub calls: u64,
    pub wholes: u64,
    /// Of those, how many demand 3 spoke of.
    pub demanded: u64,
    /// And how many T-13 spoke of, and demand 3 did not.
    pub promised: u64,
}

impl Tally {
    /// The calls and parts, the flaws that must come in a call, and the themes of frames across a join.
    pub fn of(
        calls: impl Iterator<Item = Call>,
        flaws: impl Iterator<Item = (&'static str, Flaw)>,
        themes: impl Iterator<Item = &'static Theme>,
    ) -> Tally {
        let mut tally = Tally {
            flaws: flaws.map(|flaw| (flaw, 0)).collect(),
            across: themes
                .flat_map(|theme| theme.must_come().map(|across| ((theme.name, across), 0)))
                .collect(),
            lost: (1..FRAME).map(|distance| (distance, 0)).collect(),
            ..Tally::default()
        };
        for call in calls {
            if tally.line(&call).is_none() {
                let came = [0; ANSWERS];
                tally.lines.push(Line { call, came });
            }
        }
        tally
    }

    fn line(&mut self, call: &Call) -> Option<&mut Line> {
        self.lines
            .iter_mut()
            .find(|line| line.call.name == call.name)
    }

    pub fn count_flaw(&mut self, call: &'static str, flaw: Flaw) {
        *self.flaws.entry((call, flaw)).or_default() += 1;
    }

    pub fn count_across(&mut self, theme: Option<&Theme>, across: &[Across]) {
        let Some(theme) = theme else { return };
        for &across in across {
            *self.across.entry((theme.name, across)).or_default() += 1;
        }
    }

    pub fn count_lost(&mut self, distances: &[usize]) {
        for &distance in distances {
            *self.lost.entry(distance).or_default() += 1;
        }
    }

    /// Counts one call, in its line and in those of its parts.
    pub fn count(&mut self, lines: &[Call], returned: u64) {
        for call in lines {
            let line = self.line(call).expect("every call and part has a line");
            line.came[returned as usize & 0xff] += 1;
        }
        self.calls += 1;
    }

    /// The answers that should have come and did not, or the other way round; and what must come else and did not.
    pub fn faults(&self) -> Vec<String> {
        let of_line = |line: &Line| {
            let expected = |answer: usize| line.call.answers.contains(&(answer as u8));
            let odd = (0..ANSWERS).filter(|&answer| expected(answer) != (line.came[answer] > 0));
            let name = line.call.name;
            odd.map(|answer| format!("{name}: answer {answer} came {} times", line.came[answer]))
                .collect::<Vec<_>>()
        };
        let mut faults: Vec<String> = self.lines.iter().flat_map(of_line).collect();
        let missing = self.flaws.iter().filter(|(_, came)| **came == 0);
        faults.extend(missing.map(|((call, flaw), _)| format!("{call}: {flaw} came 0 times")));
        let missing = self.across.iter().filter(|(_, came)| **came == 0);
        faults
            .extend(missing.map(|((theme, across), _)| format!("{theme}: {across}, came 0 times")));
        let odd = (self.lost.iter())
            .filter(|(distance, came)| (1..FRAME).contains(*distance) != (**came > 0));
        faults.extend(odd.map(|(distance, came)| {
            format!("a good frame lost at distance {distance} came {came} times")
        }));
        if self.promised == 0 {
            faults.push("T-13 spoke of no whole stream that demand 3 does not speak of".into());
        }
        if self.demanded == 0 || self.demanded == self.wholes {
            faults.push(format!(
                "demand 3 spoke of {} whole streams of {}",
                self.demanded, self.wholes
            ));
        }
        faults
    }

    /// The lines of the flaws, each with how often its flaws came.
    fn flaw_lines(&self) -> Vec<(&'static str, String, Vec<u64>)> {
        let mut lines: Vec<(_, String, Vec<u64>)> = Vec::new();
        for (&(call, flaw), &came) in &self.flaws {
            match lines.last_mut() {
                Some((last, line, counts)) if *last == call && *line == flaw.line() => {
                    counts.push(came)
                }
                _ => lines.push((call, flaw.line(), vec![came])),
            }
        }
        lines
    }

    fn write_flaws(&self, f: &mut fmt::Formatter) -> fmt::Result {
        let mut last = "";
        for (call, line, counts) in self.flaw_lines() {
            if call != last {
                let title = format!("{call}: what is wrong");
                writeln!(f, "{title:42}{:>9}{:>9}{:>9}", "places", "made", "fewest")?;
                last = call;
            }
            let (places, made) = (counts.len(), counts.iter().sum::<u64>());
            let fewest = counts.iter().min().copied().unwrap_or_default();
            writeln!(f, "- {line:40}{places:>9}{made:>9}{fewest:>9}")?;
        }
        Ok(())
    }

    fn write_lost(&self, f: &mut fmt::Formatter) -> fmt::Result {
        let title = "good frames that are not handed out";
        writeln!(
            f,
            "{title:42}{:>9}{:>9}{:>9}",
            "distances", "made", "fewest"
        )?;
        let line = "the last inside one that is";
        let distances = self.lost.values().filter(|came| **came > 0).count();
        let made = self.lost.values().sum::<u64>();
        let fewest = self.lost.values().min().copied().unwrap_or_default();
        writeln!(f, "- {line:40}{distances:>9}{made:>9}{fewest:>9}")
    }

    /// A line for each cut of a theme: how often a good frame lay so, and a near miss by each of the sync bytes.
    fn write_across(&self, f: &mut fmt::Formatter) -> fmt::Result {
        let mut lines: BTreeMap<(&str, Cut), [u64; SYNC_BYTES.len() + 1]> = BTreeMap::new();
        for (&(theme, Across { cut, wrong }), &came) in &self.across {
            let counts = lines.entry((theme, cut)).or_default();
            counts[wrong.map_or(0, |byte| 1 + byte)] = came;
        }
        let mut last = "";
        for ((theme, cut), counts) in lines {
            if theme != last {
                let title = format!("{theme}, across the join");
                write!(f, "{title:36}{:>9}", "good")?;
                (SYNC_BYTES.iter())
                    .try_for_each(|byte| write!(f, "{:>9}", format!("not {byte}")))?;
                writeln!(f)?;
                last = theme;
            }
            write!(f, "- {:34}", cut.to_string())?;
            (counts.iter()).try_for_each(|count| write!(f, "{count:>9}"))?;
            writeln!(f)?;
        }
        Ok(())
    }
}

impl fmt::Display for Tally {
    fn fmt(&self, f: &mut fmt::Formatter) -> fmt::Result {
        write!(f, "{:26}{:>10}", "call", "made")?;
        (0..ANSWERS).try_for_each(|answer| write!(f, "{answer:>9}"))?;
        writeln!(f)?;
        for Line { call, came } in &self.lines {
            write!(f, "{:26}{:>10}", call.name, came.iter().sum::<u64>())?;
            came.iter().try_for_each(|count| write!(f, "{count:>9}"))?;
            writeln!(f)?;
        }
        writeln!(f, "{:26}{:>10}", "in all", self.calls)?;
        self.write_flaws(f)?;
        self.write_across(f)?;
        self.write_lost(f)?;
        let (wholes, demanded, promised) = (self.wholes, self.demanded, self.promised);
        write!(
            f,
            "whole streams: {wholes}, of which demand 3 speaks of {demanded}, and T-13 of {promised} others"
        )
    }
}
