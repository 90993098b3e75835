//! Compares the proved manager with the second program: listings of coretrace, every word that the exported calls leave, page words as Sv39 entries, and trees of ranges.
mod bench;
mod kernel;
mod listing;
mod lists;
mod random;
mod rights;
mod runs;
mod second;
mod states;
mod sv39;
mod tree;
mod treebench;
mod treedamage;
mod treeform;
mod wishes;

use std::process::exit;

fn number(word: Option<&String>, default: u64) -> u64 {
    word.map_or(default, |w| w.parse().unwrap_or_else(|_| usage()))
}

fn usage() -> ! {
    eprintln!("compare listings [FILES_A_STYLE [FIRST_SEED]] | lists [LISTS [FIRST_SEED]] | damaged [INPUTS [FIRST_SEED]] | sv39 [NUMBERS [SEED]] | tree [STEPS [FIRST_SEED]] | planted | bench [RECORDS] | treebench [ROUNDS]");
    exit(2)
}

fn main() {
    let words: Vec<String> = std::env::args().skip(1).collect();
    let fine = match words.first().map(String::as_str) {
        Some("listings") => listing::compare(number(words.get(1), 400), number(words.get(2), 1)),
        Some("lists") => lists::compare(number(words.get(1), 200), number(words.get(2), 1)),
        Some("damaged") => states::compare(number(words.get(1), 100_000), number(words.get(2), 1)),
        Some("sv39") => sv39::compare(number(words.get(1), 1_000_000), number(words.get(2), 1)),
        Some("tree") => tree::compare(number(words.get(1), 1500), number(words.get(2), 1)),
        Some("planted") => planted(),
        Some("bench") => bench::bench(number(words.get(1), 20_000)),
        Some("treebench") => treebench::bench(number(words.get(1), 200)),
        _ => usage(),
    };
    if !fine {
        exit(1);
    }
}

/// Each planted bug of the second program must turn a comparison red.
fn planted() -> bool {
    let calls = [("lists", "60"), ("damaged", "20000")];
    let conversions = [("sv39", "1000")];
    let in_calls = ["65", "limit", "keep", "half", "before", "six", "late"].map(|bug| (bug, &calls[..]));
    // the stored files come first
    let maps = [("listings", "1")];
    let in_maps = ["ignored", "unaligned", "past", "one-free", "smaller", "first-only", "across", "same-rights"].map(|bug| (bug, &maps[..]));
    let in_conversions = ["clean", "nine", "further", "above"].map(|bug| (bug, &conversions[..]));
    let trees = [("tree", "500")];
    let in_trees = ["covered", "middle", "left-child", "leftover", "fresh", "thin", "wrap", "row", "steps"].map(|bug| (bug, &trees[..]));
    let mut fine = true;
    for (bug, comparisons) in in_calls.into_iter().chain(in_maps).chain(in_conversions).chain(in_trees) {
        let red = comparisons.iter().any(|(what, count)| turns_red(what, count, bug));
        println!("planted bug {bug}: {}", if red { "seen" } else { "NOT SEEN" });
        fine &= red;
    }
    fine
}

/// Whether a comparison sees the bug: by a difference, not by a stop of the comparison itself.
fn turns_red(what: &str, count: &str, bug: &str) -> bool {
    let me = std::env::current_exe().unwrap();
    let out = std::process::Command::new(me).args([what, count]).env("REFERENCE_BUG", bug).output().unwrap();
    out.status.code() == Some(1) && String::from_utf8_lossy(&out.stdout).contains("second program")
}
