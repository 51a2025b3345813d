//! What elements have and what is wanted of them, in patterns that ask for every sort of control page.

use super::acting::Chance;
use super::control::{four_bytes, named, parts_of};
use crate::limits::HIGHEST_SPEED;
use crate::record::Kind;
use crate::rng::Rng;

pub const SWAP: u32 = 0x1000_0000;
const SPEED: u32 = 0x0000_0007;

/// The settings of one element, stored and wanted, as a shelf block has them.
#[derive(Clone, Copy)]
pub struct Pair {
    pub stored: u32,
    pub wanted: u32,
}

/// So many elements of one type, whose settings always have some bits and can have others.
pub struct Few {
    pub kind: Kind,
    pub count: usize,
    pub always: u32,
    pub bits: u32,
}

/// Pairs for so many elements of one type. A page reaches all that is wanted.
pub type Pattern = fn(&mut Rng, Kind, usize) -> Vec<Pair>;

pub const PATTERNS: [Pattern; 12] = [
    as_stored,
    one_changed,
    few_changed,
    all_changed,
    all_alike,
    same_change,
    same_change_of_many,
    swap_cleared,
    swap_cleared_of_alike,
    two_wishes,
    few_speeds,
    few_settings,
];

pub fn any_setting(rng: &mut Rng, kind: Kind) -> u32 {
    let bits = four_bytes(rng) & named(kind);
    if kind == Kind::Cooling && bits & SPEED == 0 {
        bits | any_speed(rng)
    } else {
        bits
    }
}

fn any_speed(rng: &mut Rng) -> u32 {
    rng.range(1, HIGHEST_SPEED.into()) as u32
}

impl Few {
    pub const fn new(kind: Kind, count: usize, always: u32, bits: u32) -> Few {
        Few {
            kind,
            count,
            always,
            bits,
        }
    }

    /// Every setting; a fan's speed is not 0.
    pub fn settings(&self) -> Vec<u32> {
        let settings = parts_of(self.bits).into_iter();
        settings
            .map(|part| self.always | part)
            .filter(|settings| self.kind != Kind::Cooling || settings & SPEED != 0)
            .collect()
    }
}

impl Pair {
    /// SWAP is not wanted where it is not stored.
    pub fn reachable(stored: u32, wanted: u32) -> Pair {
        Pair {
            stored,
            wanted: wanted & (stored | !SWAP),
        }
    }
}

fn with(bits: u32, mask: u32, from: u32) -> u32 {
    bits & !mask | from & mask
}

pub fn as_stored(rng: &mut Rng, kind: Kind, count: usize) -> Vec<Pair> {
    let settings = (0..count).map(|_| any_setting(rng, kind));
    settings
        .map(|stored| Pair::reachable(stored, stored))
        .collect()
}

fn one_changed(rng: &mut Rng, kind: Kind, count: usize) -> Vec<Pair> {
    changed(rng, kind, count, 1)
}

fn few_changed(rng: &mut Rng, kind: Kind, count: usize) -> Vec<Pair> {
    let changes = rng.range(2, 4);
    changed(rng, kind, count, changes)
}

fn changed(rng: &mut Rng, kind: Kind, count: usize, changes: usize) -> Vec<Pair> {
    let mut pairs = as_stored(rng, kind, count);
    for _ in 0..changes.min(count) {
        let pair = &mut pairs[rng.range(0, count - 1)];
        *pair = Pair::reachable(pair.stored, any_setting(rng, kind));
    }
    pairs
}

pub fn all_changed(rng: &mut Rng, kind: Kind, count: usize) -> Vec<Pair> {
    let pair = |_| Pair::reachable(any_setting(rng, kind), any_setting(rng, kind));
    (0..count).map(pair).collect()
}

/// The same record for all, but for the SWAPs that are not stored.
fn all_alike(rng: &mut Rng, kind: Kind, count: usize) -> Vec<Pair> {
    let wanted = any_setting(rng, kind);
    let pair = |_| Pair::reachable(any_setting(rng, kind), wanted);
    (0..count).map(pair).collect()
}

/// The same change for all, whatever their speeds.
fn same_change(rng: &mut Rng, kind: Kind, count: usize) -> Vec<Pair> {
    let change = any_setting(rng, kind);
    let pair = |_| {
        let stored = any_setting(rng, kind);
        Pair::reachable(stored, with(change, SPEED, stored))
    };
    (0..count).map(pair).collect()
}

/// The same change for some, rarely or mostly, and the others stay or get something else.
fn same_change_of_many(rng: &mut Rng, kind: Kind, count: usize) -> Vec<Pair> {
    let (often, stays) = (Chance::any(rng), Chance::any(rng));
    let mut pairs = same_change(rng, kind, count);
    for pair in &mut pairs {
        if !often.comes(rng) {
            let other = any_setting(rng, kind);
            let wanted = if stays.comes(rng) { pair.stored } else { other };
            *pair = Pair::reachable(pair.stored, wanted);
        }
    }
    pairs
}

fn swap_cleared(rng: &mut Rng, kind: Kind, count: usize) -> Vec<Pair> {
    let often = Chance::any(rng);
    let mut pairs = as_stored(rng, kind, count);
    for pair in &mut pairs {
        if often.comes(rng) {
            pair.wanted &= !SWAP;
        }
    }
    pairs
}

/// Elements that differ in SWAP, and perhaps in speed, lose it all or in part.
fn swap_cleared_of_alike(rng: &mut Rng, kind: Kind, count: usize) -> Vec<Pair> {
    let (stored_often, cleared_often) = (Chance::any(rng), Chance::any(rng));
    let own_speeds = rng.one_in(2);
    let (alike, wanted) = (any_setting(rng, kind), any_setting(rng, kind));
    let wanted = rng.pick(&[alike, alike, wanted]);
    let pair = |_| {
        let speeds = if own_speeds {
            any_setting(rng, kind)
        } else {
            alike
        };
        let swap = if stored_often.comes(rng) { SWAP } else { 0 };
        let kept = if cleared_often.comes(rng) { 0 } else { SWAP };
        let stored = with(with(alike, SPEED, speeds), SWAP, swap);
        Pair::reachable(stored, with(with(wanted, SPEED, speeds), SWAP, kept))
    };
    (0..count).map(pair).collect()
}

/// Elements that are alike; one half gets one wish and the other another, up to one element.
fn two_wishes(rng: &mut Rng, kind: Kind, count: usize) -> Vec<Pair> {
    let stored = any_setting(rng, kind);
    let first = any_setting(rng, kind);
    let second = any_setting(rng, kind);
    let second = rng.pick(&[stored, second, with(second, SPEED, first)]);
    let firsts = (count / 2 + rng.range(0, 1)).min(count);
    let mut wanted = [vec![first; firsts], vec![second; count - firsts]].concat();
    for place in 0..count {
        wanted.swap(place, rng.range(0, place));
    }
    let pairs = wanted.into_iter();
    pairs
        .map(|wanted| Pair::reachable(stored, wanted))
        .collect()
}

/// Two or three speeds, stored and wanted, and one change or none.
fn few_speeds(rng: &mut Rng, kind: Kind, count: usize) -> Vec<Pair> {
    let (stored, other) = (any_setting(rng, kind), any_setting(rng, kind));
    let wanted = rng.pick(&[stored, other]);
    let speeds: Vec<u32> = (0..rng.range(2, 3)).map(|_| any_speed(rng)).collect();
    let of_type = SPEED & named(kind);
    let pair = |_| {
        let (before, after) = (rng.pick(&speeds), rng.pick(&speeds));
        Pair::reachable(with(stored, of_type, before), with(wanted, of_type, after))
    };
    (0..count).map(pair).collect()
}

/// One to three settings stored, and as few wanted.
fn few_settings(rng: &mut Rng, kind: Kind, count: usize) -> Vec<Pair> {
    let few = |rng: &mut Rng| -> Vec<u32> {
        let number = rng.range(1, 3);
        (0..number).map(|_| any_setting(rng, kind)).collect()
    };
    let (stored, mut wanted) = (few(rng), few(rng));
    if rng.one_in(2) {
        wanted.push(stored[0]);
    }
    let pair = |_| Pair::reachable(rng.pick(&stored), rng.pick(&wanted));
    (0..count).map(pair).collect()
}
