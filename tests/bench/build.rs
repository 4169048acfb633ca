//! Compiles the state machine and links it.

use std::env;
use std::process::Command;

const SOURCE: &str = "state_machine.c";
const HEADERS: &str = "../../include";

fn run(program: &str, arguments: &[&str]) {
    let status = Command::new(program).args(arguments).status();
    let done = status.is_ok_and(|status| status.success());
    assert!(done, "{program} {} failed", arguments.join(" "));
}

fn main() {
    println!("cargo:rerun-if-changed={SOURCE}");
    println!("cargo:rerun-if-changed={HEADERS}/hpsdr.h");
    let folder = env::var("OUT_DIR").expect("cargo sets it");
    let object = format!("{folder}/state_machine.o");
    let archive = format!("{folder}/libstate_machine.a");
    let warnings = ["-std=c11", "-Wall", "-Wextra", "-Werror"];
    let compiling = ["-O3", "-I", HEADERS, "-c", SOURCE, "-o", &object];
    run("gcc", &[&warnings[..], &compiling[..]].concat());
    run("ar", &["crs", &archive, &object]);
    println!("cargo:rustc-link-search=native={folder}");
    println!("cargo:rustc-link-lib=static=state_machine");
}
