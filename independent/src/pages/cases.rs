//! Calls to compare: every call, with good input of every shape and with all that can be wrong.

mod acting;
mod building;
pub mod case;
mod changes;
pub mod collecting;
mod collectors;
mod configuration;
pub mod control;
pub mod descriptors;
mod fails;
mod flaws;
mod naming;
mod reading;
mod rewriting;
mod shapes;
pub mod threshold_out;
pub mod wishes;
mod writing;

use crate::rng::Rng;
use case::{Case, Offer};

/// Pages with one to four offending bytes, for each call that reads or applies a page.
pub const OFFENDING: [fn(&mut Rng) -> Case; 6] = [
    configuration::offending,
    reading::offending_status,
    reading::offending_thresholds,
    control::offending,
    threshold_out::offending,
    descriptors::offending,
];

pub fn offer_all(rng: &mut Rng, offer: Offer) {
    writing::offer_all(rng, offer);
    reading::offer_all(rng, offer);
    configuration::offer_all(rng, offer);
    rewriting::offer_all(rng, offer);
    control::offer_all(rng, offer);
    threshold_out::offer_all(rng, offer);
    building::offer_all(rng, offer);
    descriptors::offer_all(rng, offer);
    naming::offer_all(rng, offer);
    for offending in OFFENDING {
        for _ in 0..1_500 {
            offer(offending(rng));
        }
    }
    collecting::offer_all(rng, offer);
    fails::offer_all(rng, offer);
}
