//! Single calls on lent words, as little-endian 32-bit words in and out.

use std::io::{self, Read, Write};

use crate::sv39;
use crate::tables;
use crate::tree;
use crate::unit::{self, Rules, Unit, UNIT_WORDS};
use crate::words::{numbers, Buffers, Outcome};

/// The next word; none at the end of input.
fn word_or_end<R: Read>(input: &mut R) -> io::Result<Option<u32>> {
    let mut bytes = [0; 4];
    let mut at = 0;
    while at < 4 {
        match input.read(&mut bytes[at..]) {
            Ok(0) if at == 0 => return Ok(None),
            Ok(0) => return Err(io::ErrorKind::UnexpectedEof.into()),
            Ok(n) => at += n,
            Err(e) if e.kind() == io::ErrorKind::Interrupted => {}
            Err(e) => return Err(e),
        }
    }
    Ok(Some(u32::from_le_bytes(bytes)))
}

fn word<R: Read>(input: &mut R) -> io::Result<u32> {
    word_or_end(input)?.ok_or_else(|| io::ErrorKind::UnexpectedEof.into())
}

fn words<R: Read>(input: &mut R, count: usize) -> io::Result<Vec<u32>> {
    let mut bytes = vec![0; 4 * count];
    input.read_exact(&mut bytes)?;
    Ok(bytes
        .chunks_exact(4)
        .map(|w| u32::from_le_bytes([w[0], w[1], w[2], w[3]]))
        .collect())
}

fn buffer<R: Read>(input: &mut R) -> io::Result<Vec<u32>> {
    let count = word(input)? as usize;
    words(input, count)
}

fn put<W: Write>(output: &mut W, words: &[u32]) -> io::Result<()> {
    let bytes: Vec<u8> = words.iter().flat_map(|w| w.to_le_bytes()).collect();
    output.write_all(&bytes)
}

/// Makes one call by its number.
pub fn perform(
    command: u32,
    b: &mut Buffers,
    unit: &mut Unit,
    args: [u32; 4],
    rules: &Rules,
) -> Option<Outcome> {
    let [a0, a1, a2, a3] = args;
    Some(match command {
        1 => tables::set_up_pool(b, a0),
        2 => tables::open(b, a0),
        3 => tables::close(b, a0),
        4 => tables::map(b, a0, a1, a2, a3, rules),
        5 => tables::unmap(b, a0, a1, a2),
        6 => tables::protect(b, a0, a1, a2, a3, rules),
        7 => unit::translate(b, unit, a0, a1, a2, rules),
        8 => tables::coverage(b, a0, rules),
        9 => unit::set_up_unit(unit),
        10 => tables::preview(b, a0, a1, a2, a3, rules),
        _ => return None,
    })
}

/// Answers commands until the end of input.
pub fn serve<R: Read, W: Write>(input: &mut R, output: &mut W, rules: &Rules) -> io::Result<()> {
    while let Some(command) = word_or_end(input)? {
        let mut b = Buffers {
            control: buffer(input)?,
            frames: buffer(input)?,
            pages: buffer(input)?,
            ranges: buffer(input)?,
        };
        let mut unit_words = [0; UNIT_WORDS];
        unit_words.copy_from_slice(&words(input, UNIT_WORDS)?);
        let mut unit = Unit::from_words(&unit_words);
        let mut args = [0; 4];
        args.copy_from_slice(&words(input, 4)?);

        let outcome = perform(command, &mut b, &mut unit, args, rules).ok_or_else(|| {
            io::Error::new(io::ErrorKind::InvalidData, format!("no command {command}"))
        })?;
        put(output, &numbers(outcome))?;
        for buffer in [&b.control, &b.frames, &b.pages, &b.ranges] {
            put(output, &[buffer.len() as u32])?;
            put(output, buffer)?;
        }
        put(output, &unit.to_words())?;
        output.flush()?;
    }
    Ok(())
}

/// Makes one conversion by its direction: 0 to an entry, 1 from one.
fn conversion(direction: u32, number: u64, rules: &Rules) -> Option<Outcome> {
    match direction {
        0 => Some(sv39::to_sv39(number.try_into().ok()?, rules)),
        1 => Some(sv39::from_sv39(number, rules)),
        _ => None,
    }
}

/// Answers conversions until the end of input: a direction, a count, and that many
/// numbers of 64 bits.
pub fn convert<R: Read, W: Write>(input: &mut R, output: &mut W, rules: &Rules) -> io::Result<()> {
    while let Some(direction) = word_or_end(input)? {
        let count = word(input)? as usize;
        let mut answers = Vec::with_capacity(3 * count);
        for number in words(input, 2 * count)?.chunks_exact(2) {
            let number = u64::from(number[0]) | u64::from(number[1]) << 32;
            let outcome = conversion(direction, number, rules).ok_or_else(|| {
                let what = format!("no conversion {direction} of {number}");
                io::Error::new(io::ErrorKind::InvalidData, what)
            })?;
            answers.extend(numbers(outcome));
        }
        put(output, &answers)?;
        output.flush()?;
    }
    Ok(())
}

/// Asks for a lookup of every page.
const EVERY_PAGE: u32 = 4;

/// Answers calls on trees until the end of input: a kind (1 insert, 2 remove, 3
/// look up), a count, that many words and four arguments. The answer has its three
/// numbers and the words as they then are; kind 4 has the numbers of each page.
pub fn trees<R: Read, W: Write>(input: &mut R, output: &mut W, rules: &Rules) -> io::Result<()> {
    while let Some(kind) = word_or_end(input)? {
        let mut tree = buffer(input)?;
        let mut args = [0; 4];
        args.copy_from_slice(&words(input, 4)?);
        if kind == EVERY_PAGE {
            let found = tree::lookups(&tree, rules).into_iter();
            put(output, &found.flat_map(numbers).collect::<Vec<u32>>())?;
        } else {
            let which = (kind as usize).wrapping_sub(1);
            let call = tree::Call::new(which, args).ok_or_else(|| {
                io::Error::new(io::ErrorKind::InvalidData, format!("no kind {kind}"))
            })?;
            put(output, &numbers(call.perform(&mut tree, rules)))?;
            put(output, &[tree.len() as u32])?;
            put(output, &tree)?;
        }
        output.flush()?;
    }
    Ok(())
}
