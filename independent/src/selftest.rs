//! Checks this program alone: the paper's own numbers, and examples worked out by hand from its rules
//! where it gives none.

mod acting;
mod building;
mod checks;
mod collecting;
mod elements;
pub mod examples;
mod names;
mod offsets;
mod pages;

use checks::Checks;

pub fn run() -> bool {
    let mut checks = Checks::default();
    elements::check(&mut checks);
    pages::check(&mut checks);
    acting::check(&mut checks);
    offsets::check(&mut checks);
    names::check(&mut checks);
    collecting::check(&mut checks);
    building::check(&mut checks);
    checks.tell()
}
