//! Compares the twenty-one calls on pages, names and collectors with the library's.

use super::calls::{Answer, WRITE_STATUS};
use super::cases::{self, case::Case};
use super::coverage::Coverage;
use super::{before, fail_before};
use crate::hex;
use crate::library::{request, Library};
use crate::record;
use crate::rng::Rng;
use std::process::exit;

const SEED: u64 = 0x9A6E;
/// So few that all answers asked at once fit a pipe, unless there is but one.
const ANSWERED_AT_ONCE: usize = 60_000;

struct Comparison {
    library: Library,
    waiting: Vec<(Case, Vec<u8>)>,
    waiting_bytes: usize,
    compared: usize,
    coverage: Coverage,
}

pub fn run(command: &[&str]) -> bool {
    let mut comparison = Comparison {
        library: Library::start(command),
        waiting: Vec::new(),
        waiting_bytes: 0,
        compared: 0,
        coverage: Coverage::default(),
    };
    cases::offer_all(&mut Rng::new(SEED), &mut |case| comparison.take(case));
    comparison.ask();
    println!("pages: {} calls alike", comparison.compared);
    comparison.coverage.print() && comparison.library.end()
}

impl Comparison {
    fn take(&mut self, case: Case) {
        let expected = case.answer();
        hold_to_before(&case, expected.number);
        hold_status_to_before(&case, &expected);
        self.coverage.count(&case, &expected);
        if self.waiting_bytes + expected.bytes.len() > ANSWERED_AT_ONCE {
            self.ask();
        }
        self.waiting_bytes += expected.bytes.len();
        self.waiting.push((case, expected.bytes));
    }

    fn ask(&mut self) {
        let cases = self.waiting.iter().map(|(case, _)| case);
        let requests: Vec<Vec<u8>> = cases.map(case_request).collect();
        let answers = self.library.ask(&requests, self.waiting_bytes);
        let mut rest = &answers[..];
        for (case, expected) in self.waiting.drain(..) {
            let (answer, after) = rest.split_at(expected.len());
            rest = after;
            if answer != expected {
                stop(&case, answer, &expected);
            }
            self.compared += 1;
        }
        self.waiting_bytes = 0;
    }
}

/// The number is that of then, but for 12, which was 4.
fn hold_to_before(case: &Case, number: u8) {
    let as_then = if number == 12 { 4 } else { number };
    match before::number(case) {
        Some(then) if then != as_then => {
            println!("pages: {} was {then} and is {number}", case.call.name);
            print_given(case);
            exit(1)
        }
        _ => {}
    }
}

/// A status page is that of before request Five, with FAIL lit as the request asks.
fn hold_status_to_before(case: &Case, answer: &Answer) {
    if case.call.letter != WRITE_STATUS.letter || answer.number != 0 {
        return;
    }
    let shelf = record::read(&case.inputs[0]).expect("the shelf of an accepted call");
    let lit = fail_before::lit(&shelf.configuration(), fail_before::page(&shelf));
    let page = &answer.bytes[5..][..answer.written()];
    if page != lit {
        println!("pages: a status page with more than FAIL changed, or with less");
        print_given(case);
        print_bytes("as before, with FAIL", &lit);
        print_bytes("now", page);
        exit(1)
    }
}

fn case_request(case: &Case) -> Vec<u8> {
    request(
        case.call.letter,
        &case.call.buffers(&case.inputs, &case.lent),
    )
}

fn stop(case: &Case, answer: &[u8], expected: &[u8]) -> ! {
    println!("pages: {} differs", case.call.name);
    print_given(case);
    for (whose, answer) in [("library", answer), ("expected", expected)] {
        println!("{whose}: {}", case.call.numbers(answer));
        print_bytes(whose, answer);
    }
    exit(1)
}

fn print_given(case: &Case) {
    for input in &case.inputs {
        print_bytes("given", input);
    }
    print_bytes("output, record, collector or shelf before", &case.lent);
}

fn print_bytes(what: &str, bytes: &[u8]) {
    println!("{what}, {} bytes:", bytes.len());
    hex::print(bytes);
}
