//! Sv39 entries in words that a debugger's user can read.

use std::io::{self, BufRead, Write};

use crate::sv39::{self, Cause};
use crate::text;
use crate::unit::Rules;

/// The standard's name of the field that has this bit.
fn field(place: u32) -> &'static str {
    match place {
        0..=7 => ["V", "R", "W", "X", "U", "G", "A", "D"][place as usize],
        8 | 9 => "RSW",
        10..=53 => "PPN",
        54..=60 => "reserved",
        61 | 62 => "PBMT",
        _ => "N",
    }
}

/// The flags that are set, from V up; in fields of several bits with the place.
fn flags(entry: u64) -> String {
    let set = (0..10).chain(54..64).filter(|&p| sv39::is_set(entry, p));
    let names: Vec<String> = set
        .map(|place| match field(place) {
            letter if letter.len() == 1 => letter.to_string(),
            field => format!("{field}{place}"),
        })
        .collect();
    match names.is_empty() {
        true => "no flags".to_string(),
        false => format!("flags {}", names.join(" ")),
    }
}

fn rights(entry: u64) -> String {
    let letters = [(sv39::R, 'r'), (sv39::W, 'w'), (sv39::X, 'x')];
    let shown = letters.map(|(place, letter)| match sv39::is_set(entry, place) {
        true => letter,
        false => '-',
    });
    shown.iter().collect()
}

fn reason(cause: Cause, entry: u64) -> String {
    match cause {
        Cause::Clear(place) => {
            let meaning = match place {
                sv39::V => "valid",
                sv39::A => "accessed",
                _ => "dirty",
            };
            format!("{meaning} ({}) is clear", field(place))
        }
        Cause::Further(place) => format!("further bit {place} ({}) is set", field(place)),
        Cause::FrameAbove => "the frame is above 4095".to_string(),
        Cause::Rights => {
            let rights = rights(entry);
            let why = match rights.as_str() {
                "---" => "no leaf",
                _ => "reserved",
            };
            format!("rights {rights} ({why})")
        }
    }
}

/// What an entry says, without the entry itself.
fn described(entry: u64, rules: &Rules) -> String {
    let frame = sv39::frame_in(entry);
    match sv39::word_of(entry, rules) {
        Ok(0) => "unmapped, word 0".to_string(),
        Ok(word) => {
            let inside = match sv39::is_set(entry, sv39::range_place(rules)) {
                true => "in a range",
                false => "in no range",
            };
            let rights = rights(entry);
            format!("frame {frame}, rights {rights}, {inside}, word {word}")
        }
        Err(cause) => {
            let (flags, why) = (flags(entry), reason(cause, entry));
            format!("{flags}, frame {frame}, no word: {why}")
        }
    }
}

fn read_entry(line: &str) -> Result<Option<u64>, &'static str> {
    let mut parts = text::parts(line);
    let Some(entry) = parts.next() else {
        return Ok(None);
    };
    if parts.next().is_some() {
        return Err("more than one entry");
    }
    text::number(entry).map(Some).ok_or(text::NO_ENTRY)
}

/// Says of each entry, one a line, what it is.
pub fn describe<R: BufRead, W: Write>(input: R, output: &mut W, rules: Rules) -> io::Result<()> {
    text::each_line(input, read_entry, |_, entry| match entry {
        None => Ok(()),
        Some(entry) => writeln!(output, "{entry:#x}: {}", described(entry, &rules)),
    })
}
