//! The paper's numbers for one element, its thresholds, and the block of shelf A.

use super::checks::Checks;
use super::examples::{
    current, fan, fan_at, fan_like, fans_a, high_critical, high_warning, largest_shelf,
    low_critical, low_warning, sensors_shown, set_to, shelf_a, stopped, temperature, voltage,
    ALL_BUT_FAIL, ALL_FLAGS, FAIL,
};
use crate::element::{Code, Limits, Verdict};
use crate::limits::{
    element_at, HIGHEST_NOMINAL, HIGHEST_SPEED, LONGEST_BLOCK, SLOTS_AT, TYPES_AT,
};
use crate::record::{self, Element, Kind, Settings, Thresholds};

pub fn check(checks: &mut Checks) {
    fan_status(checks);
    speed_codes(checks);
    temperature_verdicts(checks);
    voltage_verdicts(checks);
    current_verdicts(checks);
    sensors_fail(checks);
    fans_fail(checks);
    thresholds(checks);
    block_of_fans_a(checks);
}

fn verdicts_of<const N: usize>(checks: &mut Checks, cases: [(&str, Element, Verdict); N]) {
    for (what, element, verdict) in cases {
        checks.equal(what, element.verdict(), verdict);
    }
}

fn shown_of<const N: usize>(checks: &mut Checks, cases: [(&str, Element, [u8; 4]); N]) {
    for (what, element, status) in cases {
        checks.equal(what, element.status(), status);
    }
}

fn nothing_trips() -> Verdict {
    Verdict {
        code: Code::Normal,
        limits: Limits::default(),
    }
}

fn warning_over() -> Verdict {
    Verdict {
        code: Code::NonCritical,
        limits: Limits {
            warning_over: true,
            ..Limits::default()
        },
    }
}

fn critical_over() -> Verdict {
    Verdict {
        code: Code::Critical,
        limits: Limits {
            critical_over: true,
            ..Limits::default()
        },
    }
}

fn critical_under() -> Verdict {
    Verdict {
        code: Code::Critical,
        limits: Limits {
            critical_under: true,
            ..Limits::default()
        },
    }
}

fn fan_status(checks: &mut Checks) {
    let fans = fans_a().map(|fan| ("fan of A", fan, [0x01, 0x00, 0x78, 0x23]));
    shown_of(checks, fans);
    let standing = fan_at(0);
    checks.equal("ON, reading 0", standing.verdict().code, Code::Critical);
    let off = stopped(standing);
    let shown = [
        ("ON, reading 0", standing, [0x02, 0x00, 0x00, 0x23]),
        ("OFF, reading 0", off, [0x01, 0x00, 0x00, 0x10]),
        ("reading 2047", fan_at(2047), [0x01, 0x07, 0xFF, 0x23]),
    ];
    shown_of(checks, shown);
}

/// Whether a fan turns does not matter: ON shows the stored SPEED, and stopped shows 0.
fn speed_codes(checks: &mut Checks) {
    let readings = [
        (0, 2, [0x00, 0x00]),
        (1, 1, [0x00, 0x01]),
        (258, 1, [0x01, 0x02]),
        (2047, 1, [0x07, 0xFF]),
    ];
    for speed in 1..=HIGHEST_SPEED {
        for (reading, code, [upper, lower]) in readings {
            let plain = fan_like(Settings::default(), speed, reading);
            let flagged = fan_like(ALL_FLAGS, speed, reading);
            let shown = [
                (plain, [code, upper, lower, 0x20 + speed]),
                (stopped(plain), [0x01, upper, lower, 0x10]),
                (flagged, [0x70 + code, 0x80 + upper, lower, 0x60 + speed]),
                (stopped(flagged), [0x71, 0x80 + upper, lower, 0x50]),
            ];
            let what = format!("SPEED {speed}, reading {reading}");
            shown_of(checks, shown.map(|(fan, status)| (&what[..], fan, status)));
        }
    }
}

fn temperature_verdicts(checks: &mut Checks) {
    let cool = temperature(64, high_warning(64));
    let warm = temperature(65, high_warning(64));
    let hot = temperature(65, high_critical(64));
    let at_limit = temperature(10, low_warning(10));
    let chilly = temperature(9, low_warning(10));
    let cold = temperature(9, low_critical(10));
    let silent = temperature(0, Thresholds::from_bytes([64, 64, 10, 10]));
    let verdicts = [
        ("byte 64, high warning 64", cool, nothing_trips()),
        ("byte 65, high warning 64", warm, warning_over()),
        ("byte 10, low warning 10", at_limit, nothing_trips()),
    ];
    verdicts_of(checks, verdicts);
    checks.equal("byte 0", silent.verdict().code, Code::NoReading);
    let shown = [
        ("OT WARNING shown", warm, [0x03, 0x40, 0x41, 0x04]),
        ("OT FAILURE shown", hot, [0x02, 0x40, 0x41, 0x08]),
        ("UT FAILURE shown", cold, [0x02, 0x40, 0x09, 0x02]),
        ("UT WARNING shown", chilly, [0x03, 0x40, 0x09, 0x01]),
        ("byte 0 shown", silent, [0x06, 0x00, 0x00, 0x00]),
    ];
    shown_of(checks, shown);
}

fn voltage_verdicts(checks: &mut Checks) {
    let at_limit = voltage(1320, 1200, high_critical(20));
    let above = voltage(1321, 1200, high_critical(20));
    let below_half = voltage(358, 350, high_warning(5));
    let above_half = voltage(359, 350, high_warning(5));
    let at_low_limit = voltage(1080, 1200, low_warning(20));
    let low = voltage(1079, 1200, low_warning(20));
    let negative = voltage(-1, 1200, low_critical(20));
    let highest = voltage(i16::MAX, 1, Thresholds::default());
    let lowest = voltage(i16::MIN, HIGHEST_NOMINAL, Thresholds::default());
    let verdicts = [
        ("N 1200, V 1320", at_limit, nothing_trips()),
        ("N 1200, V 1321", above, critical_over()),
        ("N 350, V 358", below_half, nothing_trips()),
        ("N 350, V 359", above_half, warning_over()),
        ("N 1200, V 1080", at_low_limit, nothing_trips()),
        ("N 1200, V -1", negative, critical_under()),
        ("no limits, high", highest, nothing_trips()),
        ("no limits, low", lowest, nothing_trips()),
    ];
    verdicts_of(checks, verdicts);
    let shown = [
        ("CRIT OVER shown", above, [0x02, 0x42, 0x05, 0x29]),
        ("WARN OVER shown", above_half, [0x03, 0x48, 0x01, 0x67]),
        ("CRIT UNDER shown", negative, [0x02, 0x41, 0xFF, 0xFF]),
        ("WARN UNDER shown", low, [0x03, 0x44, 0x04, 0x37]),
    ];
    shown_of(checks, shown);
}

fn current_verdicts(checks: &mut Checks) {
    let at_limit = current(1320, 1200, high_critical(20));
    let above = current(1321, 1200, high_critical(20));
    let warned = current(359, 350, high_warning(5));
    let negative = current(-1, 1200, high_critical(20));
    let shown = [
        ("current at its limit", at_limit, [0x01, 0x00, 0x05, 0x28]),
        ("CRIT OVER shown", above, [0x02, 0x42, 0x05, 0x29]),
        ("WARN OVER shown", warned, [0x03, 0x48, 0x01, 0x67]),
        ("negative current", negative, [0x01, 0x00, 0xFF, 0xFF]),
    ];
    shown_of(checks, shown);
}

fn sensors_fail(checks: &mut Checks) {
    for (sensor, without, with_fail) in sensors_shown() {
        let others = 0x7080_0000;
        let shown = [
            ("FAIL not stored", sensor, without),
            ("FAIL stored", set_to(FAIL, sensor), with_fail),
            (
                "all but FAIL",
                set_to(ALL_BUT_FAIL, sensor),
                others + without,
            ),
            ("all flags", set_to(ALL_FLAGS, sensor), others + with_fail),
        ];
        let shown = shown.map(|(what, sensor, status)| (what, sensor, status.to_be_bytes()));
        shown_of(checks, shown);
    }
}

/// A fan has FAIL in another byte, and shows the stored one with any code.
fn fans_fail(checks: &mut Checks) {
    let fans = [
        (fan(3), [0x01, 0x00, 0x78, 0x23]),
        (fan_at(0), [0x02, 0x00, 0x00, 0x23]),
        (stopped(fan_at(0)), [0x01, 0x00, 0x00, 0x10]),
    ];
    for (fan, [byte0, byte1, byte2, byte3]) in fans {
        let (failed, others) = (set_to(FAIL, fan), set_to(ALL_BUT_FAIL, fan));
        let shown = [
            ("FAIL not stored", fan, [byte0, byte1, byte2, byte3]),
            ("FAIL stored", failed, [byte0, byte1, byte2, 0x40 + byte3]),
            ("all but FAIL", others, [0x70 + byte0, 0x80, byte2, byte3]),
        ];
        shown_of(checks, shown);
    }
}

fn thresholds(checks: &mut Checks) {
    let stored = Thresholds::from_bytes([90, 80, 20, 10]);
    let overall = Thresholds::from_bytes([91, 0, 21, 0]);
    let individual = Thresholds::from_bytes([92, 82, 0, 0]);
    checks.equal(
        "individual, else overall, else stored",
        stored.joined(overall, individual),
        Thresholds::from_bytes([92, 82, 21, 10]),
    );
    let order_kept = |kind: Kind, bytes| Thresholds::from_bytes(bytes).keep_order(kind);
    for kind in [Kind::Temperature, Kind::Voltage, Kind::Current] {
        checks.equal("high bytes equal", order_kept(kind, [9, 9, 0, 0]), true);
        checks.equal("high bytes in order", order_kept(kind, [10, 9, 0, 0]), true);
        checks.equal(
            "high bytes out of order",
            order_kept(kind, [9, 10, 0, 0]),
            false,
        );
        checks.equal("no high critical", order_kept(kind, [0, 10, 0, 0]), true);
    }
    for kind in [Kind::Temperature, Kind::Voltage] {
        let warning_greater_kept = kind == Kind::Temperature;
        checks.equal("low bytes equal", order_kept(kind, [0, 0, 9, 9]), true);
        checks.equal("low warning alone", order_kept(kind, [0, 0, 9, 0]), true);
        checks.equal("low critical alone", order_kept(kind, [0, 0, 0, 9]), true);
        let warning_greater = order_kept(kind, [0, 0, 10, 9]);
        checks.equal("low warning greater", warning_greater, warning_greater_kept);
        let critical_greater = order_kept(kind, [0, 0, 9, 10]);
        checks.equal(
            "low critical greater",
            critical_greater,
            !warning_greater_kept,
        );
    }
}

fn block_of_fans_a(checks: &mut Checks) {
    let shelf = shelf_a(fans_a().to_vec());
    let block = shelf.block();
    checks.equal("length of A", block.len(), 332 + 3 * 16 + 4 * 32);
    checks.equal("generation of A", &block[..4], &[0, 0, 0, 7]);
    checks.equal("types of A", &block[TYPES_AT..SLOTS_AT], &[1, 0, 0, 0]);
    checks.equal(
        "slot of A",
        &block[SLOTS_AT..][..7],
        &[3, 3, 3, 0, b'F', b'a', b'n'],
    );
    let element = [0, 0, 0, 0x23, 0, 0, 0, 0, 0, 0x78, 0, 0, 0, 0, 0, 0];
    checks.equal("last fan of A", &block[element_at(2)..][..16], &element);
    checks.equal("names of A", &block[element_at(3)..], &[0; 4 * 32]);
    checks.equal("A is well formed", shelf.well_formed(), true);
    checks.equal("A read back", record::read(&block), Some(shelf));
    for speed in 0..=HIGHEST_SPEED {
        for fan in [fan(speed), stopped(fan(speed))] {
            let well_formed = shelf_a(vec![fan]).well_formed();
            checks.equal("SPEED of any fan", well_formed, speed != 0);
        }
    }
    let mut largest = largest_shelf();
    checks.equal("longest block", largest.block().len(), LONGEST_BLOCK);
    checks.equal("most elements", largest.well_formed(), true);
    let last = largest.groups.last_mut().expect("a type");
    last.add(fan(3));
    checks.equal("an element more", largest.well_formed(), false);
}
