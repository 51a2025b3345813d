//! Compares the library's answer on shelf blocks with the one reached here.

use crate::cases::{self, Intent};
use crate::hex;
use crate::library::{request, Library};
use crate::record::{self, Kind, Shelf};
use crate::rng::Rng;
use std::collections::BTreeMap;
use std::process::exit;

const SEED: u64 = 0x5E5;
const LEAST_OF_EACH: usize = 10_000;
const ASKED_AT_ONCE: usize = 1_000;

struct Comparison {
    library: Library,
    /// Each block, and whether it is well formed by the rules here.
    waiting: Vec<(Vec<u8>, bool)>,
    well_formed: usize,
    malformed: usize,
    fails: Fails,
}

/// How often well-formed blocks had elements of each type with each code, without a stored FAIL and with it.
#[derive(Default)]
struct Fails(BTreeMap<(u8, u8), [usize; 2]>);

pub fn run(command: &[&str]) -> bool {
    let mut comparison = Comparison {
        library: Library::start(command),
        waiting: Vec::new(),
        well_formed: 0,
        malformed: 0,
        fails: Fails::default(),
    };
    cases::offer_all(&mut Rng::new(SEED), &mut |block, intent| {
        comparison.take(block, intent)
    });
    comparison.ask();
    println!(
        "shelves: {} blocks compared, {} well formed, {} not",
        comparison.well_formed + comparison.malformed,
        comparison.well_formed,
        comparison.malformed
    );
    let mut enough =
        comparison.well_formed >= LEAST_OF_EACH && comparison.malformed >= LEAST_OF_EACH;
    enough &= comparison.fails.print();
    if !enough {
        println!("too few: at least {LEAST_OF_EACH} of each are wanted");
    }
    enough && comparison.library.end()
}

impl Comparison {
    fn take(&mut self, block: &[u8], intent: Intent) {
        let shelf = record::read(block).filter(Shelf::well_formed);
        let well_formed = shelf.is_some();
        if (intent == Intent::WellFormed && !well_formed)
            || (intent == Intent::Malformed && well_formed)
        {
            stop(
                block,
                &format!("made as {intent:?}, well formed here: {well_formed}"),
            );
        }
        if let Some(shelf) = shelf {
            self.fails.count(&shelf);
        }
        self.waiting.push((block.to_vec(), well_formed));
        if self.waiting.len() == ASKED_AT_ONCE {
            self.ask();
        }
    }

    fn ask(&mut self) {
        let requests: Vec<Vec<u8>> = self
            .waiting
            .iter()
            .map(|(block, _)| request(b'c', &[block]))
            .collect();
        let answers = self.library.ask(&requests, requests.len());
        for ((block, well_formed), library) in self.waiting.drain(..).zip(answers) {
            let own = if well_formed { 0 } else { 1 };
            if library != own {
                stop(
                    &block,
                    &format!("library says {library}, this program says {own}"),
                );
            }
            if well_formed {
                self.well_formed += 1;
            } else {
                self.malformed += 1;
            }
        }
    }
}

impl Fails {
    fn count(&mut self, shelf: &Shelf) {
        for element in shelf.elements() {
            let of = (element.kind().code(), element.verdict().code.number());
            let times = self.0.entry(of).or_default();
            times[usize::from(element.settings().fail)] += 1;
        }
    }

    /// False if a code that a type can have came up too rarely.
    fn print(&self) -> bool {
        println!("shelves: elements by type and code, without a stored FAIL and with it");
        let mut enough = true;
        for kind in Kind::ALL {
            for code in kind.codes() {
                let of = (kind.code(), code.number());
                let [without, with] = self.0.get(&of).copied().unwrap_or_default();
                println!("  {:02X}h, {}: {without:7} {with:7}", of.0, of.1);
                enough &= without >= LEAST_OF_EACH && with >= LEAST_OF_EACH;
            }
        }
        enough
    }
}

fn stop(block: &[u8], difference: &str) -> ! {
    println!(
        "shelves: {difference}, on a block of {} bytes:",
        block.len()
    );
    hex::print(block);
    exit(1)
}
