//! The twenty-one calls on bytes, as the C library has them.

use super::collector::Collector;
use super::descriptors::{self, NameList};
use super::status::Status;
use super::thresholds::ThresholdList;
use super::{builder, configuration, control, threshold_out, Refusal};
use crate::limits::COLLECTOR_BYTES;
use crate::record::{self, Configuration, Shelf};
use std::iter::zip;

/// The number of a call's answer, and all bytes of it as the door sends them.
#[derive(Clone, Debug, PartialEq, Eq)]
pub struct Answer {
    pub number: u8,
    pub bytes: Vec<u8>,
}

impl Answer {
    /// The length of the page, for a call that writes one.
    pub fn written(&self) -> usize {
        self.wide_number(1)
    }

    /// The SELECTs on the page, for the call that builds one.
    pub fn selects(&self) -> usize {
        self.wide_number(5)
    }

    /// Of the first offending byte, for a call that hands back a record or shelf.
    pub fn offset(&self) -> usize {
        self.wide_number(1)
    }

    /// The record or shelf, for a call that hands one back behind an offset.
    pub fn record(&self) -> &[u8] {
        &self.bytes[5..]
    }

    /// The element that has the name, for the call that looks for one.
    pub fn found(&self) -> Option<usize> {
        let element = self.wide_number(1);
        (element != NO_ELEMENT).then_some(element)
    }

    /// For a call that sets a name.
    pub fn shelf(&self) -> &[u8] {
        &self.bytes[1..]
    }

    /// The collector and the shelf, for the call that ends a page.
    pub fn collector_and_shelf(&self) -> (&[u8], &[u8]) {
        self.record().split_at(COLLECTOR_BYTES)
    }

    fn wide_number(&self, at: usize) -> usize {
        wide_number(&self.bytes[at..])
    }
}

/// Told if no element has the name.
const NO_ELEMENT: usize = u32::MAX as usize;

fn wide_number(bytes: &[u8]) -> usize {
    let bytes = bytes[..4].try_into().expect("four bytes");
    u32::from_be_bytes(bytes) as usize
}

pub struct Call {
    pub name: &'static str,
    pub letter: u8,
    /// Every number that the call can answer with; 0 alone if it has no answer.
    pub outcomes: &'static [u8],
    /// What the four-byte numbers behind it tell, the first four bytes of a collector among them.
    tells: &'static [&'static str],
    rule: Rule,
}

/// By the number of buffers it looks at; the last buffer is the one that it may change. A call that acts
/// may change the first, the shelf, and one that only asks may change none. A number handed in is a buffer too.
/// A call on a collector may change that, and behind it the shelf; the first buffer of such a call is the whole page
/// so far, of which the library is told no more than the collector has.
enum Rule {
    OfOne(fn(&[u8], &[u8]) -> Answer),
    OfTwo(fn(&[u8], &[u8], &[u8]) -> Answer),
    Asking(fn(&[u8], &[u8]) -> Answer),
    Acting(fn(&[u8], &[u8]) -> Answer),
    Setting(fn(&[u8], u32, &[u8]) -> Answer),
    Emptying(fn(Collector) -> Answer),
    Putting(fn(Collector, &[u8]) -> Answer),
    Ending(fn(Collector, &[u8], u8) -> Answer),
}

pub static WRITE_CONFIGURATION: Call = Call {
    name: "write_configuration",
    letter: b'A',
    outcomes: &[0, 1, 11],
    tells: &["written"],
    rule: Rule::OfOne(write_configuration),
};

pub static WRITE_STATUS: Call = Call {
    name: "write_status",
    letter: b'B',
    outcomes: &[0, 1, 11],
    tells: &["written"],
    rule: Rule::OfOne(write_status),
};

pub static WRITE_THRESHOLDS: Call = Call {
    name: "write_thresholds",
    letter: b'C',
    outcomes: &[0, 1, 11],
    tells: &["written"],
    rule: Rule::OfOne(write_thresholds),
};

pub static READ_CONFIGURATION: Call = Call {
    name: "read_configuration",
    letter: b'D',
    outcomes: &[0, 2, 3, 4, 6, 12],
    tells: &["offset"],
    rule: Rule::OfOne(read_configuration),
};

pub static READ_STATUS: Call = Call {
    name: "read_status",
    letter: b'E',
    outcomes: &[0, 1, 2, 3, 4, 5, 6, 12],
    tells: &["offset"],
    rule: Rule::OfTwo(read_status),
};

pub static READ_THRESHOLDS: Call = Call {
    name: "read_thresholds",
    letter: b'F',
    outcomes: &[0, 1, 2, 3, 4, 5, 6, 7, 8, 12],
    tells: &["offset"],
    rule: Rule::OfTwo(read_thresholds),
};

pub static REWRITE_CONFIGURATION: Call = Call {
    name: "rewrite_configuration",
    letter: b'G',
    outcomes: &[0, 1, 11],
    tells: &["written"],
    rule: Rule::OfOne(rewrite_configuration),
};

pub static REWRITE_STATUS: Call = Call {
    name: "rewrite_status",
    letter: b'H',
    outcomes: &[0, 1, 6, 9, 11],
    tells: &["written"],
    rule: Rule::OfTwo(rewrite_status),
};

pub static REWRITE_THRESHOLDS: Call = Call {
    name: "rewrite_thresholds",
    letter: b'I',
    outcomes: &[0, 1, 6, 7, 8, 9, 11],
    tells: &["written"],
    rule: Rule::OfTwo(rewrite_thresholds),
};

pub static APPLY_CONTROL: Call = Call {
    name: "apply_control",
    letter: b'J',
    outcomes: &[0, 1, 2, 3, 4, 5, 6, 12],
    tells: &["offset"],
    rule: Rule::Acting(apply_control),
};

pub static APPLY_THRESHOLDS: Call = Call {
    name: "apply_thresholds",
    letter: b'K',
    outcomes: &[0, 1, 2, 3, 4, 5, 6, 7, 8, 12],
    tells: &["offset"],
    rule: Rule::Acting(apply_thresholds),
};

pub static BUILD_CONTROL: Call = Call {
    name: "build_control",
    letter: b'L',
    outcomes: &[0, 1, 9, 10, 11],
    tells: &["written", "selects"],
    rule: Rule::OfTwo(build_control),
};

pub static WRITE_DESCRIPTORS: Call = Call {
    name: "write_descriptors",
    letter: b'M',
    outcomes: &[0, 1, 11],
    tells: &["written"],
    rule: Rule::OfOne(write_descriptors),
};

pub static READ_DESCRIPTORS: Call = Call {
    name: "read_descriptors",
    letter: b'N',
    outcomes: &[0, 1, 2, 3, 4, 5, 6, 12],
    tells: &["offset"],
    rule: Rule::OfTwo(read_descriptors),
};

pub static REWRITE_DESCRIPTORS: Call = Call {
    name: "rewrite_descriptors",
    letter: b'O',
    outcomes: &[0, 1, 6, 9, 11],
    tells: &["written"],
    rule: Rule::OfTwo(rewrite_descriptors),
};

pub static FIND_NAME: Call = Call {
    name: "find_name",
    letter: b'P',
    outcomes: &[0, 1],
    tells: &["element"],
    rule: Rule::Asking(find_name),
};

pub static SET_NAME: Call = Call {
    name: "set_name",
    letter: b'Q',
    outcomes: &[0, 1, 6, 15],
    tells: &[],
    rule: Rule::Setting(set_name),
};

pub static SET_OVERALL_NAME: Call = Call {
    name: "set_overall_name",
    letter: b'R',
    outcomes: &[0, 1, 6, 15],
    tells: &[],
    rule: Rule::Setting(set_overall_name),
};

pub static EMPTY_COLLECTOR: Call = Call {
    name: "empty_collector",
    letter: b'S',
    outcomes: &[0],
    tells: &[],
    rule: Rule::Emptying(empty_collector),
};

pub static PUT_CHUNK: Call = Call {
    name: "put_chunk",
    letter: b'T',
    outcomes: &[0],
    tells: &[],
    rule: Rule::Putting(put_chunk),
};

pub static END_PAGE: Call = Call {
    name: "end_page",
    letter: b'U',
    outcomes: &[0, 1, 2, 3, 4, 5, 6, 7, 8, 12],
    tells: &["offset", "count"],
    rule: Rule::Ending(end_page),
};

pub static ALL: [&Call; 21] = [
    &WRITE_CONFIGURATION,
    &WRITE_STATUS,
    &WRITE_THRESHOLDS,
    &READ_CONFIGURATION,
    &READ_STATUS,
    &READ_THRESHOLDS,
    &REWRITE_CONFIGURATION,
    &REWRITE_STATUS,
    &REWRITE_THRESHOLDS,
    &APPLY_CONTROL,
    &APPLY_THRESHOLDS,
    &BUILD_CONTROL,
    &WRITE_DESCRIPTORS,
    &READ_DESCRIPTORS,
    &REWRITE_DESCRIPTORS,
    &FIND_NAME,
    &SET_NAME,
    &SET_OVERALL_NAME,
    &EMPTY_COLLECTOR,
    &PUT_CHUNK,
    &END_PAGE,
];

impl Call {
    pub fn answer(&self, inputs: &[Vec<u8>], lent: &[u8]) -> Answer {
        match (&self.rule, inputs) {
            (Rule::OfOne(rule), [input]) => rule(input, lent),
            (Rule::OfTwo(rule), [first, second]) => rule(first, second, lent),
            (Rule::Asking(rule), [first, second]) => rule(first, second),
            (Rule::Acting(rule), [page]) => rule(lent, page),
            (Rule::Setting(rule), [number, text]) => {
                let number = number[..].try_into().expect("a number of four bytes");
                rule(lent, u32::from_be_bytes(number), text)
            }
            (Rule::Emptying(rule), [page]) => rule(Collector::of(lent, page)),
            (Rule::Putting(rule), [page, chunk]) => rule(Collector::of(lent, page), chunk),
            (Rule::Ending(rule), [page, code]) => {
                let (collector, shelf) = lent.split_at(COLLECTOR_BYTES);
                rule(Collector::of(collector, page), shelf, code[0])
            }
            _ => panic!("{} takes another number of buffers", self.name),
        }
    }

    /// The numbers of an answer as the door sends it, each behind its name.
    pub fn numbers(&self, answer: &[u8]) -> String {
        if let Rule::Emptying(_) | Rule::Putting(_) = self.rule {
            return format!("no answer, count {}", wide_number(answer));
        }
        let mut numbers = format!("answer {}", answer[0]);
        for (name, bytes) in zip(self.tells, answer[1..].chunks(4)) {
            numbers += &format!(", {name} {}", wide_number(bytes));
        }
        numbers
    }

    /// All buffers in the order in which the call takes them.
    pub fn buffers<'a>(&self, inputs: &'a [Vec<u8>], lent: &'a [u8]) -> Vec<&'a [u8]> {
        let mut buffers: Vec<&[u8]> = inputs.iter().map(Vec::as_slice).collect();
        match self.rule {
            Rule::OfOne(_) | Rule::OfTwo(_) => buffers.push(lent),
            Rule::Asking(_) => {}
            Rule::Acting(_) | Rule::Setting(_) => buffers.insert(0, lent),
            Rule::Emptying(_) | Rule::Putting(_) => buffers[0] = lent,
            Rule::Ending(_) => {
                let (collector, shelf) = lent.split_at(COLLECTOR_BYTES);
                buffers[0] = shelf;
                buffers.insert(0, collector);
            }
        }
        buffers
    }
}

pub fn write_configuration(shelf: &[u8], out: &[u8]) -> Answer {
    let page = |shelf: Shelf| configuration::page(&shelf.configuration());
    wrote(well_formed_shelf(shelf).map(page), out)
}

pub fn write_status(shelf: &[u8], out: &[u8]) -> Answer {
    let page = |shelf: Shelf| Status::of(&shelf).page(shelf.generation);
    wrote(well_formed_shelf(shelf).map(page), out)
}

pub fn write_thresholds(shelf: &[u8], out: &[u8]) -> Answer {
    let page = |shelf: Shelf| ThresholdList::of(&shelf).page(shelf.generation);
    wrote(well_formed_shelf(shelf).map(page), out)
}

pub fn read_configuration(page: &[u8], before: &[u8]) -> Answer {
    let read = configuration::read(page);
    handed_back(read.map(|configuration| configuration.block()), before)
}

pub fn read_status(configuration: &[u8], page: &[u8], before: &[u8]) -> Answer {
    let read = well_formed(configuration)
        .and_then(|configuration| Status::read(&configuration, page))
        .map(|status| status.record());
    handed_back(read, before)
}

pub fn read_thresholds(configuration: &[u8], page: &[u8], before: &[u8]) -> Answer {
    let read = well_formed(configuration)
        .and_then(|configuration| ThresholdList::read(&configuration, page))
        .map(|thresholds| thresholds.record());
    handed_back(read, before)
}

pub fn rewrite_configuration(configuration: &[u8], out: &[u8]) -> Answer {
    let page = |configuration| configuration::page(&configuration);
    wrote(well_formed(configuration).map(page), out)
}

pub fn rewrite_status(configuration: &[u8], record: &[u8], out: &[u8]) -> Answer {
    let page = |configuration: Configuration| {
        let status = Status::from_record(&configuration, record)?;
        Ok(status.page(configuration.generation))
    };
    wrote(well_formed(configuration).and_then(page), out)
}

pub fn rewrite_thresholds(configuration: &[u8], record: &[u8], out: &[u8]) -> Answer {
    let page = |configuration: Configuration| {
        let thresholds = ThresholdList::from_record(&configuration, record)?;
        Ok(thresholds.page(configuration.generation))
    };
    wrote(well_formed(configuration).and_then(page), out)
}

pub fn apply_control(shelf: &[u8], page: &[u8]) -> Answer {
    let after = well_formed_shelf(shelf).and_then(|shelf| control::after(&shelf, page));
    handed_back(after.map(|shelf| shelf.block()), shelf)
}

pub fn apply_thresholds(shelf: &[u8], page: &[u8]) -> Answer {
    let after = well_formed_shelf(shelf).and_then(|shelf| threshold_out::after(&shelf, page));
    handed_back(after.map(|shelf| shelf.block()), shelf)
}

/// As a call that writes a page, and after its length four bytes with the SELECTs on it.
pub fn build_control(shelf: &[u8], wanted: &[u8], out: &[u8]) -> Answer {
    let page = well_formed_shelf(shelf)
        .and_then(|shelf| builder::page(&shelf, wanted))
        .and_then(|page| fitting(page, out));
    let (number, page) = outcome(page);
    let numbers = [page.len(), builder::selects(&page)];
    told(number, &numbers, laid_over(page, out))
}

pub fn write_descriptors(shelf: &[u8], out: &[u8]) -> Answer {
    let page = |shelf: Shelf| NameList::of(&shelf).page(shelf.generation);
    wrote(well_formed_shelf(shelf).map(page), out)
}

pub fn read_descriptors(configuration: &[u8], page: &[u8], before: &[u8]) -> Answer {
    let read = well_formed(configuration)
        .and_then(|configuration| NameList::read(&configuration, page))
        .map(|names| names.record());
    handed_back(read, before)
}

pub fn rewrite_descriptors(configuration: &[u8], record: &[u8], out: &[u8]) -> Answer {
    let page = |configuration: Configuration| {
        let names = NameList::from_record(&configuration, record)?;
        Ok(names.page(configuration.generation))
    };
    wrote(well_formed(configuration).and_then(page), out)
}

/// The number, and four bytes with the element found.
pub fn find_name(shelf: &[u8], text: &[u8]) -> Answer {
    match well_formed_shelf(shelf).map(|shelf| descriptors::found(&shelf, text)) {
        Ok(Some(element)) => told(0, &[element], Vec::new()),
        Ok(None) => told(0, &[NO_ELEMENT], Vec::new()),
        Err(refusal) => told(refusal.number(), &[NO_ELEMENT], Vec::new()),
    }
}

pub fn set_name(shelf: &[u8], element: u32, text: &[u8]) -> Answer {
    let after = |shelf: Shelf| descriptors::named(&shelf, element as usize, text);
    set(well_formed_shelf(shelf).and_then(after), shelf)
}

pub fn set_overall_name(shelf: &[u8], of_type: u32, text: &[u8]) -> Answer {
    let after = |shelf: Shelf| descriptors::named_overall(&shelf, of_type as usize, text);
    set(well_formed_shelf(shelf).and_then(after), shelf)
}

pub fn empty_collector(mut collector: Collector) -> Answer {
    collector.start();
    left(collector)
}

pub fn put_chunk(mut collector: Collector, chunk: &[u8]) -> Answer {
    collector.put(chunk);
    left(collector)
}

/// As a call that applies the page, and the collector in front of the shelf.
pub fn end_page(mut collector: Collector, shelf: &[u8], code: u8) -> Answer {
    let after = well_formed_shelf(shelf).and_then(|shelf| collector.after(&shelf, code));
    let Answer { number, bytes } = handed_back(after.map(|shelf| shelf.block()), shelf);
    collector.start();
    let (numbers, shelf) = bytes.split_at(5);
    Answer {
        number,
        bytes: [numbers, &collector.block(), shelf].concat(),
    }
}

fn well_formed_shelf(block: &[u8]) -> Result<Shelf, Refusal> {
    record::read(block)
        .filter(Shelf::well_formed)
        .ok_or(Refusal::NotWellFormed)
}

fn well_formed(block: &[u8]) -> Result<Configuration, Refusal> {
    Configuration::read(block).ok_or(Refusal::NotWellFormed)
}

/// The number, four bytes with the length of the page, and the output buffer.
fn wrote(page: Result<Vec<u8>, Refusal>, out: &[u8]) -> Answer {
    let (number, page) = outcome(page.and_then(|page| fitting(page, out)));
    told(number, &[page.len()], laid_over(page, out))
}

/// The number, four bytes with the offset of the first offending byte, and the record or shelf.
fn handed_back(record: Result<Vec<u8>, Refusal>, before: &[u8]) -> Answer {
    let offset = match record {
        Ok(_) => 0,
        Err(refusal) => refusal.offset(),
    };
    let (number, record) = outcome(record);
    told(number, &[offset], laid_over(record, before))
}

/// The number and the shelf.
fn set(after: Result<Shelf, Refusal>, before: &[u8]) -> Answer {
    let (number, after) = outcome(after.map(|shelf| shelf.block()));
    told(number, &[], laid_over(after, before))
}

/// The collector alone.
fn left(collector: Collector) -> Answer {
    Answer {
        number: 0,
        bytes: collector.block(),
    }
}

fn fitting(page: Vec<u8>, out: &[u8]) -> Result<Vec<u8>, Refusal> {
    if page.len() <= out.len() {
        Ok(page)
    } else {
        Err(Refusal::OutputTooShort)
    }
}

/// An answer in the order in which the door sends it.
fn told(number: u8, wide_numbers: &[usize], buffer: Vec<u8>) -> Answer {
    let mut bytes = vec![number];
    for wide in wide_numbers {
        bytes.extend((*wide as u32).to_be_bytes());
    }
    bytes.extend(buffer);
    Answer { number, bytes }
}

fn outcome(made: Result<Vec<u8>, Refusal>) -> (u8, Vec<u8>) {
    match made {
        Ok(made) => (0, made),
        Err(refusal) => (refusal.number(), Vec::new()),
    }
}

fn laid_over(front: Vec<u8>, before: &[u8]) -> Vec<u8> {
    let kept = &before[front.len()..];
    [&front, kept].concat()
}
