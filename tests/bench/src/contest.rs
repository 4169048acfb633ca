//! One row of the table: the contenders' rounds on the same inputs, and their medians.

use std::hint::black_box;
use std::time::{Duration, Instant};

const ROUNDS: usize = 41;
/// How long one contender is timed in one round.
const SPELL: Duration = Duration::from_millis(12);

/// Makes one call on one input.
pub type Work<C> = fn(&mut C, &<C as Contest>::Input);

/// A call that the contenders make, each on buffers of its own. The functions are not inlined into
/// the timed loop, so that neither side is spared its call.
pub trait Contest {
    type Input;
    const MACHINE: Option<Work<Self>> = None;
    /// The library's single calls that together do the same.
    const SINGLES: Option<Work<Self>> = None;

    fn library(&mut self, input: &Self::Input);
    fn reference(&mut self, input: &Self::Input);

    /// Whether the contenders, having read the same inputs, gave the same.
    fn agree(&self) -> bool;
}

pub struct Entry<C: Contest> {
    pub name: String,
    pub contest: C,
    pub inputs: Vec<C::Input>,
    pub frames_a_call: f64,
    pub bytes_in: usize,
    pub bytes_out: usize,
}

/// The medians of a row, in nanoseconds a call.
pub struct Row {
    pub name: String,
    pub frames_a_call: f64,
    pub library: f64,
    pub reference: f64,
    pub machine: Option<f64>,
    pub singles: Option<f64>,
    pub copy_in: f64,
    pub copy_out: f64,
}

enum Contender<C: Contest> {
    Call(Work<C>),
    Copy(usize),
}

#[inline(never)]
fn copy(from: &[u8], to: &mut [u8]) {
    to.copy_from_slice(from);
}

fn time_of_copies(bytes: usize, count: usize) -> Duration {
    let (from, mut to) = (vec![0x5a; bytes], vec![0; bytes]);
    let start = Instant::now();
    for _ in 0..count {
        copy(black_box(&from), black_box(&mut to));
    }
    start.elapsed()
}

impl<C: Contest> Entry<C> {
    /// All that is timed: first what every row has.
    fn contenders(&self) -> Vec<Contender<C>> {
        let all = [
            Contender::Call(C::library),
            Contender::Call(C::reference),
            Contender::Copy(self.bytes_in),
            Contender::Copy(self.bytes_out),
        ];
        let others = [C::MACHINE, C::SINGLES].into_iter().flatten();
        all.into_iter().chain(others.map(Contender::Call)).collect()
    }

    fn check(&mut self) -> Result<(), String> {
        let contenders = self.contenders();
        for (place, input) in self.inputs.iter().enumerate() {
            for contender in &contenders {
                if let Contender::Call(work) = contender {
                    work(&mut self.contest, input);
                }
            }
            if !self.contest.agree() {
                return Err(format!(
                    "{}: the results of input {place} differ",
                    self.name
                ));
            }
        }
        Ok(())
    }

    fn time_of(&mut self, work: Work<C>, count: usize) -> Duration {
        let (contest, mut inputs) = (&mut self.contest, self.inputs.iter().cycle());
        let work = black_box(work);
        let start = Instant::now();
        for input in inputs.by_ref().take(count) {
            work(black_box(contest), black_box(input));
        }
        start.elapsed()
    }

    fn time(&mut self, contender: &Contender<C>, count: usize) -> Duration {
        match contender {
            Contender::Call(work) => self.time_of(*work, count),
            Contender::Copy(bytes) => time_of_copies(*bytes, count),
        }
    }

    /// How many calls fill a spell.
    fn calls_in_spell(&mut self, contender: &Contender<C>) -> usize {
        let mut count = 16;
        loop {
            let time = self.time(contender, count);
            if time * 8 > SPELL {
                let calls = count as f64 * SPELL.as_secs_f64() / time.as_secs_f64();
                return (calls as usize).max(1);
            }
            count *= 2;
        }
    }

    /// Times every contender once a round, each round from another on.
    fn medians(&mut self) -> Vec<f64> {
        let contenders = self.contenders();
        let (all, spell) = (contenders.len(), |c| self.calls_in_spell(c));
        let counts: Vec<_> = contenders.iter().map(spell).collect();
        let mut times = vec![Vec::with_capacity(ROUNDS); all];
        for round in 0..ROUNDS {
            for place in (0..all).map(|place| (place + round) % all) {
                let time = self.time(&contenders[place], counts[place]);
                times[place].push(time.as_nanos() as f64 / counts[place] as f64);
            }
        }
        times.into_iter().map(median).collect()
    }

    /// Checks the results, and then times the contenders.
    pub fn row(mut self) -> Result<Row, String> {
        self.check()?;
        let mut medians = self.medians().into_iter();
        let mut next = || medians.next().expect("every contender has one");
        Ok(Row {
            name: self.name,
            frames_a_call: self.frames_a_call,
            library: next(),
            reference: next(),
            copy_in: next(),
            copy_out: next(),
            machine: C::MACHINE.map(|_| next()),
            singles: C::SINGLES.map(|_| next()),
        })
    }
}

fn median(mut times: Vec<f64>) -> f64 {
    times.sort_unstable_by(f64::total_cmp);
    times[times.len() / 2]
}
