//! Runs the cases of files through the library's C door and through the reference, and holds both to the
//! answers in the files, which were worked out by hand. It lists everything that is not as it should be.

#![forbid(unsafe_code)]

mod answer;
mod call;
mod calls;
mod check;
mod contents;
mod describe;
mod entry;
mod file;
mod kind;
mod number;

use file::Reader;
use std::path::Path;
use std::process::ExitCode;

/// How many cases a file has, and what is not as it should be.
fn run(path: &Path) -> (usize, Vec<String>) {
    let Reader {
        cases,
        mistakes: mut faults,
        ..
    } = Reader::read(path);
    for case in &cases {
        let (line, call, title) = (case.line, case.call.name, &case.title);
        let found = check::check(case).into_iter();
        faults.extend(
            found.map(|fault| format!("{}:{line}: {call} {title}: {fault}", path.display())),
        );
    }
    (cases.len(), faults)
}

fn main() -> ExitCode {
    let paths: Vec<String> = std::env::args().skip(1).collect();
    if paths.is_empty() {
        eprintln!("usage: cases FILE..");
        return ExitCode::from(2);
    }
    let (mut in_all, mut failed) = (0, false);
    for path in &paths {
        let (cases, faults) = run(Path::new(path));
        for fault in &faults {
            eprintln!("{fault}");
        }
        println!("{path}: {cases} cases");
        in_all += cases;
        failed |= !faults.is_empty();
    }
    println!("in all: {in_all} cases");
    ExitCode::from(u8::from(failed))
}
