//! coretrace against the second program: equal listings, byte for byte.
use crate::second::{coretrace, output, reference, root};
use std::collections::BTreeMap;
use std::io::{BufRead, BufReader, Write};
use std::process::{Command, Stdio};
use std::sync::mpsc::channel;
use std::time::Duration;

pub const STYLES: [&str; 6] = ["mixed", "sleep", "fragment", "big", "grow", "garbage"];

/// What each style must reach, by the second program's own count.
fn must_reach(style: &str) -> Vec<String> {
    let words: &[&str] = match style {
        "mixed" => &[
            "answer_0",
            "answer_2",
            "answer_4",
            "answer_5",
            "answer_6",
            "answer_7",
            "answer_8",
            "answer_9",
            "answer_10",
            "answer_11",
            "answer_12",
            "answer_13",
            "answer_14",
            "answer_16",
            "answer_17",
            "map_answer_17",
            "protect_answer_17",
            "way_1",
            "way_2",
            "way_3",
        ],
        "sleep" => &["behind_63", "behind_64", "behind_65", "way_1", "way_2", "way_3"],
        "fragment" => &["answer_0", "answer_14", "way_3", "half_down", "half_up"],
        "big" => &["answer_0", "way_2", "way_3"],
        // of the blocks of accepted maps: no wish, met where the old choice lies elsewhere or there too, and not met, for each reason
        "grow" => &[
            "wish_none",
            "wish_met_other",
            "wish_met_same",
            "wish_no_multiple",
            "wish_past",
            "wish_first_held",
            "wish_later_held",
        ],
        "garbage" => &["answer_16"],
        _ => &[],
    };
    words.iter().map(|w| w.to_string()).collect()
}

fn same(name: &str, input: &[u8]) -> bool {
    let theirs = output(&reference(), &["run"], input);
    let ours = output(&coretrace(), &[], input);
    if ours != theirs {
        println!("{name}: the listings differ");
        for (i, (a, b)) in String::from_utf8_lossy(&ours).lines().zip(String::from_utf8_lossy(&theirs).lines()).enumerate() {
            if a != b {
                println!("  line {}: coretrace `{a}`, second program `{b}`", i + 1);
                break;
            }
        }
        return false;
    }
    true
}

/// Stored record files in text form.
fn hard() -> bool {
    let mut fine = true;
    let mut names: Vec<_> = std::fs::read_dir(root().join("tests/hard"))
        .unwrap()
        .map(|e| e.unwrap().path())
        .filter(|p| p.extension().is_some_and(|e| e == "trace"))
        .collect();
    names.sort();
    for path in &names {
        let text = std::fs::read(path).unwrap();
        let input = output(&reference(), &["encode"], &text);
        fine &= same(&path.display().to_string(), &input);
        let listing = path.with_extension("listing");
        if listing.exists() {
            let wanted = std::fs::read(&listing).unwrap();
            if output(&coretrace(), &[], &input) != wanted {
                println!("{}: not the listing that is stored", path.display());
                fine = false;
            }
        }
    }
    println!("{} stored files", names.len());
    fine && !names.is_empty()
}

/// No input at all, and inputs whose bytes and lines are several times what coretrace holds of either.
fn long() -> bool {
    let mut fine = same("no input", &[]);
    fine &= same("70000 records of length 0", &[0; 140_000]);
    for style in ["mixed", "fragment"] {
        let input = output(&reference(), &["gen", "1", "20000", style], &[]);
        fine &= same(&format!("seed 1, 20000 records, style {style}"), &input);
    }
    println!("no input and 3 long files");
    fine
}

/// The records of a file, each with its length.
fn records(mut bytes: &[u8]) -> Vec<&[u8]> {
    let mut all = Vec::new();
    while bytes.len() >= 2 {
        let n = 2 + usize::from(u16::from_le_bytes([bytes[0], bytes[1]]));
        let (record, rest) = bytes.split_at(n);
        all.push(record);
        bytes = rest;
    }
    all
}

/// Whoever sends one record, piece by piece, and waits gets its line before the input ends.
fn in_step() -> bool {
    let hard = root().join("tests/hard");
    let input = output(&reference(), &["encode"], &std::fs::read(hard.join("listing.trace")).unwrap());
    let listing = std::fs::read_to_string(hard.join("listing.listing")).unwrap();
    let mut child = Command::new(coretrace()).stdin(Stdio::piped()).stdout(Stdio::piped()).spawn().unwrap();
    let from = BufReader::new(child.stdout.take().unwrap());
    let (line, lines) = channel();
    std::thread::spawn(move || from.lines().all(|l| l.is_ok_and(|l| line.send(l).is_ok())));
    let mut to = child.stdin.take().unwrap();
    let waits = |wanted: &str| lines.recv_timeout(Duration::from_secs(20)).is_ok_and(|l| l == wanted);
    let mut wanted = listing.lines();
    let mut fine = waits(wanted.next().unwrap());
    for record in records(&input) {
        for piece in record.chunks(3) {
            fine = fine && to.write_all(piece).is_ok();
        }
        fine = fine && waits(wanted.next().unwrap());
    }
    let _ = child.kill();
    let _ = child.wait();
    println!("in step: {}", if fine { "each line came" } else { "a line did not come" });
    fine
}

pub fn compare(files: u64, first: u64) -> bool {
    let mut fine = hard();
    fine &= long();
    fine &= in_step();
    for style in STYLES {
        let mut reached: BTreeMap<String, u64> = BTreeMap::new();
        for seed in first..first + files {
            let n = (20 + seed % 180).to_string();
            let input = output(&reference(), &["gen", &seed.to_string(), &n, style], &[]);
            if !same(&format!("seed {seed}, {n} records, style {style}"), &input) {
                println!("  again: compare listings 1 {seed}");
                return false;
            }
            if seed % 8 == 0 {
                let stats = output(&reference(), &["stats"], &input);
                for line in String::from_utf8_lossy(&stats).lines() {
                    let mut words = line.split_whitespace();
                    if let (Some(name), Some(value)) = (words.next(), words.next().and_then(|v| v.parse::<u64>().ok())) {
                        *reached.entry(name.to_string()).or_default() += value;
                    }
                }
            }
        }
        let missing: Vec<String> = must_reach(style).into_iter().filter(|w| reached.get(w).copied().unwrap_or(0) == 0).collect();
        println!("style {style}: seeds {first} to {}, {files} files equal", first + files - 1);
        if files >= 100 && !missing.is_empty() {
            println!("  not reached: {}", missing.join(" "));
            fine = false;
        }
    }
    fine
}
