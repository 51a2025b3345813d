//! An outside check of the library, written from the rules alone.

mod bits;
mod cases;
mod element;
mod hex;
mod library;
mod limits;
mod names;
mod pages;
mod record;
mod rng;
mod selftest;
mod shelves;
mod shown;

use std::io::{stdout, Write};
use std::process::ExitCode;

fn main() -> ExitCode {
    let arguments: Vec<String> = std::env::args().skip(1).collect();
    let command: Vec<&str> = arguments.iter().map(String::as_str).collect();
    let passed = match &command[..] {
        ["selftest"] => selftest::run(),
        ["shelf-a"] => stdout().write_all(&selftest::examples::block_a()).is_ok(),
        ["pages", library @ ..] if !library.is_empty() => pages::compare::run(library),
        ["shelves", library @ ..] if !library.is_empty() => shelves::run(library),
        _ => {
            eprintln!(
                "usage: independent selftest | shelf-a | (pages | shelves) PROGRAM [ARGUMENT]..."
            );
            return ExitCode::from(2);
        }
    };
    if passed {
        ExitCode::SUCCESS
    } else {
        ExitCode::FAILURE
    }
}
