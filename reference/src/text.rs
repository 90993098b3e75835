//! Calls as text, one a line: to and from record files, or made as they stand.

use std::io::{self, BufRead, Read, Write};

use crate::sv39;
use crate::trace::{Call, Core, Piece, Pieces, ARGS, MAP, NAMES};
use crate::tree;
use crate::unit::Rules;
use crate::words::numbers;

// The words of the calls that have no record kind.
const PREVIEW: &str = "preview";
const TO_SV39: &str = "to_sv39";
const FROM_SV39: &str = "from_sv39";

/// What is wrong with an entry.
pub const NO_ENTRY: &str = "an entry is no number of 64 bits";
const NO_WORD: &str = "a word is no number of 32 bits";
const WRONG_COUNT: &str = "wrong number of arguments";

/// What a line asks for.
enum Asked {
    /// A comment or a blank line.
    Nothing,
    /// Bytes of a record file, whole records or not.
    Raw(Vec<u8>),
    Call(Call),
    /// Of this map.
    Preview(Call),
    /// Of this page word.
    ToSv39(u32),
    /// Of this entry.
    FromSv39(u64),
    Tree(tree::Call),
}

fn wrong(number: usize, what: &str) -> io::Error {
    io::Error::new(io::ErrorKind::InvalidData, format!("line {number}: {what}"))
}

fn bytes_of_hex<'a>(parts: impl Iterator<Item = &'a str>) -> Result<Vec<u8>, &'static str> {
    let digits = parts
        .flat_map(str::chars)
        .map(|c| c.to_digit(16).map(|d| d as u8))
        .collect::<Option<Vec<u8>>>()
        .ok_or("no hex digit")?;
    if digits.len() % 2 != 0 {
        return Err("half a byte");
    }
    Ok(digits.chunks(2).map(|d| 16 * d[0] + d[1]).collect())
}

/// What stands on a line before a comment.
pub fn parts(line: &str) -> impl Iterator<Item = &str> {
    line.split('#').next().unwrap_or("").split_whitespace()
}

/// A decimal number, or a hexadecimal one behind 0x.
pub fn number(text: &str) -> Option<u64> {
    let (digits, radix) = match text.strip_prefix("0x") {
        Some(digits) => (digits, 16),
        None => (text, 10),
    };
    // No sign, which the library would take.
    let plain = digits.chars().all(|c| c.is_digit(radix));
    let number = u64::from_str_radix(digits, radix).ok();
    number.filter(|_| plain)
}

fn word(text: &str) -> Option<u32> {
    number(text)?.try_into().ok()
}

fn read_conversion<'a>(
    name: &str,
    parts: impl Iterator<Item = &'a str>,
) -> Result<Asked, &'static str> {
    let args: Vec<&str> = parts.collect();
    let [arg] = args[..] else {
        return Err(WRONG_COUNT);
    };
    if name == FROM_SV39 {
        return number(arg).map(Asked::FromSv39).ok_or(NO_ENTRY);
    }
    word(arg).map(Asked::ToSv39).ok_or(NO_WORD)
}

/// A call on the tree, by its place among their names.
fn read_tree_call<'a>(
    which: usize,
    parts: impl Iterator<Item = &'a str>,
) -> Result<Asked, &'static str> {
    let given = parts.map(word).collect::<Option<Vec<u32>>>();
    let given = given.ok_or(NO_WORD)?;
    if given.len() != tree::ARGS[which] {
        return Err(WRONG_COUNT);
    }
    let mut args = [0; 4];
    args[..given.len()].copy_from_slice(&given);
    let call = tree::Call::new(which, args);
    call.map(Asked::Tree).ok_or("no such call")
}

fn read_line(line: &str) -> Result<Asked, &'static str> {
    let mut parts = parts(line);
    let Some(name) = parts.next() else {
        return Ok(Asked::Nothing);
    };
    if name == "raw" {
        return bytes_of_hex(parts).map(Asked::Raw);
    }
    if name == TO_SV39 || name == FROM_SV39 {
        return read_conversion(name, parts);
    }
    if let Some(which) = tree::NAMES.iter().position(|&n| n == name) {
        return read_tree_call(which, parts);
    }
    let kind = match name {
        PREVIEW => MAP as usize,
        _ => (1..NAMES.len())
            .find(|&k| NAMES[k] == name)
            .ok_or("no such call")?,
    };
    let args = parts
        .map(|p| p.parse::<u16>().ok())
        .collect::<Option<Vec<u16>>>()
        .ok_or("an argument is no number up to 65535")?;
    if args.len() != ARGS[kind] {
        return Err(WRONG_COUNT);
    }
    let call = Call::new(kind as u16, &args);
    Ok(match name {
        PREVIEW => Asked::Preview(call),
        _ => Asked::Call(call),
    })
}

/// Hands on what is read from each line, with its number, up to the first that is
/// wrong.
pub fn each_line<R: BufRead, T>(
    input: R,
    read: impl Fn(&str) -> Result<T, &'static str>,
    mut take: impl FnMut(usize, T) -> io::Result<()>,
) -> io::Result<()> {
    for (number, line) in (1..).zip(input.lines()) {
        let asked = read(&line?).map_err(|what| wrong(number, what))?;
        take(number, asked)?;
    }
    Ok(())
}

pub fn encode<R: BufRead, W: Write>(input: R, output: &mut W) -> io::Result<()> {
    let none = |number, name: &str| Err(wrong(number, &format!("{name} has no record kind")));
    each_line(input, read_line, |number, asked| match asked {
        Asked::Nothing => Ok(()),
        Asked::Raw(bytes) => output.write_all(&bytes),
        Asked::Call(call) => output.write_all(&call.bytes()),
        Asked::Preview(_) => none(number, PREVIEW),
        Asked::ToSv39(_) => none(number, TO_SV39),
        Asked::FromSv39(_) => none(number, FROM_SV39),
        Asked::Tree(call) => none(number, call.name()),
    })
}

/// Makes the calls of a text one by one, those on a tree on one that is empty at
/// first, and prints their answers.
pub fn calls<R: BufRead, W: Write>(input: R, output: &mut W, rules: Rules) -> io::Result<()> {
    writeln!(output, "line call answer first second")?;
    let mut core = Core::new(rules);
    let mut tree = tree::empty();
    each_line(input, read_line, |number, asked| {
        let (name, outcome) = match asked {
            Asked::Nothing => return Ok(()),
            Asked::Raw(_) => return Err(wrong(number, "raw is no call")),
            Asked::Call(call) => (NAMES[call.kind as usize], core.perform(&call)),
            Asked::Preview(map) => (PREVIEW, core.preview(&map)),
            Asked::ToSv39(word) => (TO_SV39, sv39::to_sv39(word, &rules)),
            Asked::FromSv39(entry) => (FROM_SV39, sv39::from_sv39(entry, &rules)),
            Asked::Tree(call) => (call.name(), call.perform(&mut tree, &rules)),
        };
        let [answer, first, second] = numbers(outcome);
        writeln!(output, "{number} {name} {answer} {first} {second}")
    })
}

pub fn decode<R: Read, W: Write>(input: R, output: &mut W) -> io::Result<()> {
    let mut pieces = Pieces::new(input);
    while let Some(piece) = pieces.next()? {
        let (call, bytes) = match piece {
            Piece::Whole(bytes) => (Call::read(&bytes[2..]), bytes),
            Piece::Cut(bytes) => (None, bytes),
        };
        match call {
            Some(call) => {
                write!(output, "{}", NAMES[call.kind as usize])?;
                for arg in call.used() {
                    write!(output, " {arg}")?;
                }
                writeln!(output)?;
            }
            None => {
                let hex: String = bytes.iter().map(|b| format!("{b:02x}")).collect();
                writeln!(output, "raw {hex}")?;
            }
        }
    }
    Ok(())
}
