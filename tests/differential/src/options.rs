//! The options of the command line.

const DEFAULT_CALLS: u64 = 2_180_000;
const SHORT_CALLS: u64 = 37_000;
const DEFAULT_SEED: u64 = 1;

pub const USAGE: &str = "usage: differential [--calls N] [--seed S] [--short] [--case C]
  --calls N  makes at least N calls (2,180,000)
  --seed S   draws the cases from S (1)
  --short    makes 37,000 calls, every second case without guards, for a memory checker
  --case C   makes only the case of number C";

pub struct Options {
    pub calls: u64,
    pub seed: u64,
    pub short: bool,
    pub case: Option<usize>,
}

impl Options {
    /// None if they are not as the usage says.
    pub fn from(mut arguments: impl Iterator<Item = String>) -> Option<Options> {
        let mut options = Options {
            calls: DEFAULT_CALLS,
            seed: DEFAULT_SEED,
            short: false,
            case: None,
        };
        while let Some(argument) = arguments.next() {
            if argument == "--short" {
                options.short = true;
                options.calls = SHORT_CALLS;
                continue;
            }
            let value: u64 = arguments.next()?.parse().ok()?;
            match argument.as_str() {
                "--calls" => options.calls = value,
                "--seed" => options.seed = value,
                "--case" => options.case = Some(usize::try_from(value).ok()?),
                _ => return None,
            }
        }
        Some(options)
    }
}
