//! A second implementation of the frame pool, tables, translation units and the
//! range tree.

#![forbid(unsafe_code)]

mod entries;
mod gen;
#[cfg(test)]
mod plain;
mod pool;
mod state;
mod sv39;
mod tables;
#[cfg(test)]
mod tests;
mod text;
mod trace;
mod tree;
#[cfg(test)]
mod tree_tests;
mod unit;
mod words;

use std::hint::black_box;
use std::io::{self, BufReader, BufWriter, Write};
use std::process::ExitCode;
use std::time::Instant;

use unit::Rules;

const USAGE: &str =
    "usage: reference run | encode | decode | calls | stats | state | convert | tree | entries
       reference gen SEED N STYLE   (mixed, sleep, fragment, big, garbage, grow)
       reference bench [-k K] FILE..";

fn main() -> ExitCode {
    let args: Vec<String> = std::env::args().skip(1).collect();
    let args: Vec<&str> = args.iter().map(String::as_str).collect();
    match command(&args) {
        Ok(()) => ExitCode::SUCCESS,
        Err(e) => {
            eprintln!("reference: {e}");
            ExitCode::FAILURE
        }
    }
}

fn invalid(what: &str) -> io::Error {
    io::Error::new(io::ErrorKind::InvalidInput, what)
}

/// The rules, with the planted bug that REFERENCE_BUG names.
fn rules() -> io::Result<Rules> {
    let name = std::env::var("REFERENCE_BUG").unwrap_or_default();
    Rules::with_bug(&name).ok_or_else(|| {
        invalid(
            "REFERENCE_BUG is 65, limit, keep, half, before, six, late, \
             clean, nine, further, above, ignored, unaligned, past, one-free, \
             smaller, first-only, across, same-rights, covered, middle, \
             left-child, leftover, fresh, thin, wrap, row or steps",
        )
    })
}

fn command(args: &[&str]) -> io::Result<()> {
    let mut input = BufReader::with_capacity(1 << 16, io::stdin());
    let mut output = BufWriter::with_capacity(1 << 16, io::stdout());
    match args {
        ["run"] => {
            trace::run(input, &mut output, rules()?)?;
        }
        ["encode"] => text::encode(input, &mut output)?,
        ["decode"] => text::decode(input, &mut output)?,
        ["calls"] => text::calls(input, &mut output, rules()?)?,
        ["stats"] => trace::stats(input, rules()?)?.print(&mut output)?,
        ["state"] => state::serve(&mut input, &mut output, &rules()?)?,
        ["convert"] => state::convert(&mut input, &mut output, &rules()?)?,
        ["tree"] => state::trees(&mut input, &mut output, &rules()?)?,
        ["entries"] => entries::describe(input, &mut output, rules()?)?,
        ["gen", seed, n, style] => {
            let seed = seed.parse().map_err(|_| invalid("SEED is a number"))?;
            let n = n.parse().map_err(|_| invalid("N is a number"))?;
            let style = gen::Style::named(style).ok_or_else(|| invalid(USAGE))?;
            gen::generate(seed, n, style, &mut output)?;
        }
        ["bench", "-k", k, files @ ..] => {
            let k = k.parse().map_err(|_| invalid("K is a number"))?;
            bench(files, k, &mut output)?;
        }
        ["bench", files @ ..] => bench(files, 5, &mut output)?,
        _ => return Err(invalid(USAGE)),
    }
    output.flush()
}

/// Takes the listing and keeps nothing of it.
struct Drain;

impl Write for Drain {
    fn write(&mut self, bytes: &[u8]) -> io::Result<usize> {
        black_box(bytes);
        Ok(bytes.len())
    }

    fn flush(&mut self) -> io::Result<()> {
        Ok(())
    }
}

/// The fastest of k runs of each file, in microseconds a record.
fn bench<W: Write>(files: &[&str], k: u32, output: &mut W) -> io::Result<()> {
    let rules = rules()?;
    for file in files {
        let bytes = std::fs::read(file)?;
        let mut fastest = f64::INFINITY;
        let mut records = 0;
        for _ in 0..k.max(1) {
            let start = Instant::now();
            let mut listing = BufWriter::with_capacity(1 << 16, Drain);
            records = trace::run(black_box(&bytes[..]), &mut listing, rules)?;
            listing.flush()?;
            fastest = fastest.min(start.elapsed().as_secs_f64());
        }
        let each = fastest * 1e6 / records.max(1) as f64;
        writeln!(output, "{file} {records} {each:.3}")?;
    }
    Ok(())
}
