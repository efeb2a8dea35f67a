//! Runs every group of tests, one line or more for each, and stops with status 1 at the first difference. With the argument
//! `listing` it prints instead what documents 01 and 02 say of the feed on standard input.

mod groups;

use groups::{cases, compare, demand3, energies, finding, listing, plain, queues, raising, range};
use groups::{records, sentences, sheet, tuning, vectors, weight0, weighted, weights, words};
use olivia_tests::paper;
use std::io::{self, Read, Write};
use std::process::ExitCode;

type Group = (&'static str, fn() -> groups::Report);

const GROUPS: [Group; 19] = [
    ("vectors", vectors::run),
    ("words", words::run),
    ("sheet", sheet::run),
    ("records", records::run),
    ("weights", weights::run),
    ("range", range::run),
    ("finding", finding::run),
    ("energies", energies::run),
    ("raising", raising::run),
    ("tuning", tuning::run),
    ("queues", queues::run),
    ("sentences", sentences::run),
    ("cases", cases::run),
    ("compare", compare::run),
    ("plain", plain::run),
    ("weight0", weight0::run),
    ("demand3", demand3::run),
    ("weighted", weighted::run),
    ("listing", listing::run),
];

fn main() -> ExitCode {
    let arguments: Vec<_> = std::env::args_os().skip(1).collect();
    let done = match &arguments[..] {
        [] => run_groups(),
        [command] if command == "listing" => list().map_err(|error| error.to_string()),
        _ => Err("usage: olivia_tests [listing]".into()),
    };
    match done {
        Ok(()) => ExitCode::SUCCESS,
        Err(reason) => {
            eprintln!("{reason}");
            ExitCode::FAILURE
        }
    }
}

fn run_groups() -> Result<(), String> {
    for (name, run) in GROUPS {
        let lines = run().map_err(|difference| format!("{name}: {difference}"))?;
        println!("{name}: {lines}");
    }
    Ok(())
}

fn list() -> io::Result<()> {
    let mut input = vec![];
    io::stdin().read_to_end(&mut input)?;
    io::stdout().write_all(&paper::listed(&input))
}
