//! The time of the library's calls, through its C door, beside the reference's, a byte-at-a-time state
//! machine's in C and that of copying as many bytes. It prints a Markdown table.

mod contest;
mod host;
mod machine;
mod plain;
mod radio;
mod stream;
mod why;

use contest::Row;
use std::process::ExitCode;

const RECEIVERS: [usize; 4] = [1, 2, 4, 8];

const HEADING: &str = "\
Times are medians. A ratio above 1 means that the library is faster. The copies are of as many bytes
as a call takes in or gives out. The number after a radio call is its receivers; a transfer is eight
frames, beside as many single calls; a stream's frame is 512 bytes of input, in pieces of 4,096, and
of 512 where a call takes one frame. So is a plain read's, of an input of 65,536 bytes, beside the
stream's calls on the same from fresh, in pieces of 4,096. A why is asked of the last byte of such an
input, for which all of it is read, beside a plain read of the same.
";

const COLUMNS: [&str; 7] = [
    "call",
    "library, ns a frame",
    "reference / library",
    "state machine / library",
    "single calls / library",
    "copy in / library",
    "copy out / library",
];

fn print_heading() {
    println!("{HEADING}");
    println!("| {} |", COLUMNS.join(" | "));
    println!("|---|{}", "---:|".repeat(COLUMNS.len() - 1));
}

fn print_row(row: Row) {
    let ratio = |time: f64| match time / row.library {
        small if small < 0.1 => format!("{small:.3}"),
        ratio => format!("{ratio:.2}"),
    };
    let columns = [
        row.name,
        format!("{:.1}", row.library / row.frames_a_call),
        ratio(row.reference),
        row.machine.map_or("–".into(), ratio),
        row.singles.map_or("–".into(), ratio),
        ratio(row.copy_in),
        ratio(row.copy_out),
    ];
    println!("| {} |", columns.join(" | "));
}

fn print_table() -> Result<(), String> {
    print_heading();
    for receivers in RECEIVERS {
        print_row(radio::Read::entry(receivers).row()?);
    }
    for receivers in [1, 8] {
        print_row(radio::Transfer::entry(receivers).row()?);
    }
    for receivers in RECEIVERS {
        print_row(radio::Write::entry(receivers).row()?);
    }
    print_row(host::Read::entry().row()?);
    print_row(host::Build::entry().row()?);
    for entry in stream::Feed::entries() {
        print_row(entry.row()?);
    }
    for entry in plain::Read::entries() {
        print_row(entry.row()?);
    }
    for entry in why::Byte::entries() {
        print_row(entry.row()?);
    }
    Ok(())
}

fn main() -> ExitCode {
    match print_table() {
        Ok(()) => ExitCode::SUCCESS,
        Err(difference) => {
            eprintln!("bench: {difference}");
            ExitCode::FAILURE
        }
    }
}
