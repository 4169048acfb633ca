//! Prints the peak of each receiver in a recording of radio frames, which comes on standard input as raw bytes:
//!     cargo run --offline --release -p hpsdr --example peaks RECEIVERS < recording
//! The peak is the largest absolute value of I and Q. A recording's last frame counts only if sync follows it.

use hpsdr::{frames, layout, Samples, Status, FRAME};
use std::io::{self, Read, Write};

const HELD_FRAME: &str =
    "a last frame may be among the bytes held: it is handed out once sync, 7F 7F 7F, has come after it";

pub fn print_peaks(receivers: usize, recording: impl Read, mut to: impl Write) -> io::Result<()> {
    layout(receivers)?;
    let (mut status, mut samples) = (Status::fresh(), Samples::fresh());
    let (mut peaks, mut refused) = (vec![0; receivers], 0);
    let mut frames = frames(recording);
    for frame in frames.by_ref() {
        if status.read_frame(&frame?, receivers, &mut samples).is_err() {
            refused += 1;
            continue;
        }
        for (peak, receiver) in peaks.iter_mut().zip(samples.by_receiver()) {
            *peak = receiver.fold(*peak, |peak, (i, q)| peak.max(i.abs()).max(q.abs()));
        }
    }
    for (number, peak) in (1..).zip(peaks) {
        writeln!(to, "receiver {number}: peak {peak}")?;
    }
    let counts = frames.counts();
    let (read, skipped, held) = (counts.frames - refused, counts.skipped, counts.held);
    write!(to, "frames read {read}, frames refused {refused}, ")?;
    writeln!(to, "bytes skipped {skipped}, bytes held {held}")?;
    if held >= FRAME as u64 {
        writeln!(to, "{HELD_FRAME}")?;
    }
    Ok(())
}

fn main() {
    let argument = std::env::args().nth(1).unwrap_or_default();
    let printed = print_peaks(argument.parse().unwrap_or(0), io::stdin(), io::stdout());
    if let Err(error) = printed {
        eprintln!("peaks: {error}");
        std::process::exit(1);
    }
}
