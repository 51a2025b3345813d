//! The rules for one element: control, thresholds and verdict.

use crate::bits::{bit, flag};
use crate::record::{Element, FanSettings, Kind, Settings, Thresholds};
use std::array::from_fn;

/// What a selected control element asks for. ON and a speed are asked of fans only.
#[derive(Clone, Copy)]
pub struct Request {
    prdfail: bool,
    disable: bool,
    rst_swap: bool,
    rqst_ident: bool,
    rqst_fail: bool,
    rqst_on: bool,
    speed_code: u8,
}

impl Request {
    /// None for an unselected element.
    pub fn decode(kind: Kind, element: [u8; 4]) -> Option<Request> {
        bit(element[0], 7).then(|| Request::parse(kind, element))
    }

    /// A reserved bit is set in this byte of a selected element: one that the request, formed again, lacks.
    pub fn offends(kind: Kind, element: [u8; 4], at: usize) -> bool {
        match Request::decode(kind, element) {
            Some(request) => request.form(kind)[at] != element[at],
            None => false,
        }
    }

    /// Every selected element that the type allows, with what it asks for.
    pub fn every(kind: Kind) -> Vec<([u8; 4], Request)> {
        let mut elements = vec![[0; 4]];
        for at in 0..4 {
            let allowed = allowed_bytes(kind, at);
            let with_each = |element| allowed.iter().map(move |byte| with(element, at, *byte));
            elements = elements.into_iter().flat_map(with_each).collect();
        }
        let elements = elements.into_iter();
        elements
            .map(|element| (element, Request::parse(kind, element)))
            .collect()
    }

    fn parse(kind: Kind, [byte0, byte1, _, byte3]: [u8; 4]) -> Request {
        let of_sensor = Request {
            prdfail: bit(byte0, 6),
            disable: bit(byte0, 5),
            rst_swap: bit(byte0, 4),
            rqst_ident: bit(byte1, 7),
            rqst_fail: bit(byte1, 6),
            rqst_on: false,
            speed_code: 0,
        };
        match kind {
            Kind::Cooling => Request {
                rqst_fail: bit(byte3, 6),
                rqst_on: bit(byte3, 5),
                speed_code: byte3 % 8,
                ..of_sensor
            },
            Kind::Temperature | Kind::Voltage | Kind::Current => of_sensor,
        }
    }

    fn form(&self, kind: Kind) -> [u8; 4] {
        let select = true;
        let byte0 = flag(select, 7)
            + flag(self.prdfail, 6)
            + flag(self.disable, 5)
            + flag(self.rst_swap, 4);
        let ident = flag(self.rqst_ident, 7);
        match kind {
            Kind::Cooling => {
                let byte3 = flag(self.rqst_fail, 6) + flag(self.rqst_on, 5) + self.speed_code;
                [byte0, ident, 0, byte3]
            }
            Kind::Temperature | Kind::Voltage | Kind::Current => {
                [byte0, ident + flag(self.rqst_fail, 6), 0, 0]
            }
        }
    }

    fn act(&self, stored: Settings) -> Settings {
        Settings {
            prdfail: self.prdfail,
            disabled: self.disable,
            swap: stored.swap && !self.rst_swap,
            ident: self.rqst_ident,
            fail: self.rqst_fail,
        }
    }

    fn act_on_fan(&self, stored: FanSettings) -> FanSettings {
        FanSettings {
            common: self.act(stored.common),
            on: self.rqst_on,
            speed: match self.speed_code {
                0 => stored.speed,
                code => code,
            },
        }
    }
}

/// What this byte of a selected element may be. Whether a bit is reserved does not depend on the others.
fn allowed_bytes(kind: Kind, at: usize) -> Vec<u8> {
    let allowed = |byte: &u8| {
        let element = with([0x80, 0x00, 0x00, 0x00], at, *byte);
        Request::decode(kind, element).is_some() && !Request::offends(kind, element, at)
    };
    (0..=0xFF).filter(allowed).collect()
}

fn with(mut element: [u8; 4], at: usize, byte: u8) -> [u8; 4] {
    element[at] = byte;
    element
}

impl Element {
    /// Does what is asked, by the one request that is chosen for this element.
    pub fn obey(&mut self, request: Request) {
        match self {
            Element::Cooling { settings, .. } => *settings = request.act_on_fan(*settings),
            Element::Temperature { settings, .. }
            | Element::Voltage { settings, .. }
            | Element::Current { settings, .. } => *settings = request.act(*settings),
        }
    }

    /// The element after this request, or after none.
    pub fn obeying(mut self, request: Option<Request>) -> Element {
        if let Some(request) = request {
            self.obey(request);
        }
        self
    }
}

impl Thresholds {
    /// What is stored after a Threshold Out page with these two elements.
    pub fn joined(self, overall: Thresholds, individual: Thresholds) -> Thresholds {
        let [stored, overall, individual] = [self, overall, individual].map(|set| set.bytes());
        Thresholds::from_bytes(from_fn(|at| match (individual[at], overall[at]) {
            (0, 0) => stored[at],
            (0, overall) => overall,
            (individual, _) => individual,
        }))
    }
}

#[derive(Clone, Copy, Debug, PartialEq, Eq)]
pub enum Code {
    Normal,
    Critical,
    NonCritical,
    NoReading,
}

/// Which of the four limits trip.
#[derive(Clone, Copy, Debug, Default, PartialEq, Eq)]
pub struct Limits {
    pub critical_over: bool,
    pub warning_over: bool,
    pub warning_under: bool,
    pub critical_under: bool,
}

#[derive(Clone, Copy, Debug, PartialEq, Eq)]
pub struct Verdict {
    pub code: Code,
    pub limits: Limits,
}

impl Code {
    pub fn number(self) -> u8 {
        match self {
            Code::Normal => 1,
            Code::Critical => 2,
            Code::NonCritical => 3,
            Code::NoReading => 6,
        }
    }
}

impl Kind {
    /// The codes that an element of this type can have.
    pub fn codes(self) -> &'static [Code] {
        match self {
            Kind::Cooling => &[Code::Normal, Code::Critical],
            Kind::Temperature => &[
                Code::Normal,
                Code::Critical,
                Code::NonCritical,
                Code::NoReading,
            ],
            Kind::Voltage | Kind::Current => &[Code::Normal, Code::Critical, Code::NonCritical],
        }
    }
}

impl Limits {
    /// By what makes a limit trip as a high and as a low one; a limit of 0 never does.
    fn tripped(
        thresholds: Thresholds,
        high: impl Fn(u8) -> bool,
        low: impl Fn(u8) -> bool,
    ) -> Limits {
        let high = |limit| limit != 0 && high(limit);
        let low = |limit| limit != 0 && low(limit);
        Limits {
            critical_over: high(thresholds.high_critical),
            warning_over: high(thresholds.high_warning),
            warning_under: low(thresholds.low_warning),
            critical_under: low(thresholds.low_critical),
        }
    }

    fn verdict(self) -> Verdict {
        let code = if self.critical_over || self.critical_under {
            Code::Critical
        } else if self.warning_over || self.warning_under {
            Code::NonCritical
        } else {
            Code::Normal
        };
        Verdict { code, limits: self }
    }
}

impl Element {
    pub fn verdict(&self) -> Verdict {
        match *self {
            Element::Cooling {
                settings, reading, ..
            } => fan_verdict(settings, reading),
            Element::Temperature {
                thresholds,
                reading,
                ..
            } => temperature_verdict(thresholds, reading),
            Element::Voltage {
                thresholds,
                reading,
                nominal,
                ..
            } => voltage_verdict(thresholds, reading.into(), nominal.into()),
            Element::Current {
                thresholds,
                reading,
                nominal,
                ..
            } => current_verdict(thresholds, reading.into(), nominal.into()),
        }
    }
}

fn fan_verdict(settings: FanSettings, reading: u16) -> Verdict {
    let code = if settings.on && reading == 0 {
        Code::Critical
    } else {
        Code::Normal
    };
    Verdict {
        code,
        limits: Limits::default(),
    }
}

fn temperature_verdict(thresholds: Thresholds, reading: u16) -> Verdict {
    if reading == 0 {
        return Verdict {
            code: Code::NoReading,
            limits: Limits::default(),
        };
    }
    let degrees = |byte: i32| byte - 20;
    let measured = degrees(reading.into());
    let above = |limit: u8| measured > degrees(limit.into());
    let below = |limit: u8| measured < degrees(limit.into());
    Limits::tripped(thresholds, above, below).verdict()
}

/// `v` and `n` are reading and nominal; a limit counts in half percents of the nominal.
fn voltage_verdict(thresholds: Thresholds, v: i64, n: i64) -> Verdict {
    let above = |limit: u8| 200 * (v - n) > n * i64::from(limit);
    let below = |limit: u8| 200 * (n - v) > n * i64::from(limit);
    Limits::tripped(thresholds, above, below).verdict()
}

/// As for a voltage, high only.
fn current_verdict(thresholds: Thresholds, v: i64, n: i64) -> Verdict {
    let high_only = Thresholds {
        low_warning: 0,
        low_critical: 0,
        ..thresholds
    };
    voltage_verdict(high_only, v, n)
}
