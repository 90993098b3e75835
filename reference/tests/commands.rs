//! The commands of the built program.

use std::io::Write;
use std::process::{Command, Output, Stdio};

fn reference(args: &[&str], bug: Option<&str>, input: &[u8]) -> Output {
    let mut command = Command::new(env!("CARGO_BIN_EXE_reference"));
    command.args(args).env_remove("REFERENCE_BUG");
    if let Some(bug) = bug {
        command.env("REFERENCE_BUG", bug);
    }
    let mut child = command
        .stdin(Stdio::piped())
        .stdout(Stdio::piped())
        .stderr(Stdio::piped())
        .spawn()
        .unwrap();
    let mut stdin = child.stdin.take().unwrap();
    let input = input.to_vec();
    let feeder = std::thread::spawn(move || {
        // The program may end before it has read everything.
        let _ = stdin.write_all(&input);
    });
    let output = child.wait_with_output().unwrap();
    feeder.join().unwrap();
    output
}

fn good(args: &[&str], input: &[u8]) -> Vec<u8> {
    let output = reference(args, None, input);
    assert!(output.status.success(), "{args:?}");
    output.stdout
}

#[test]
fn listing_through_encode() {
    let calls = "setup 32\nopen 0\nmap 0 4 11 3
translate 0 0 6 1\ntranslate 0 0 7 1\ntranslate 0 0 6 1
unmap 0 6 1\ntranslate 0 0 6 1\ntranslate 0 0 14 1\ncoverage 0\n";
    let records = good(&["encode"], calls.as_bytes());
    assert_eq!(good(&["decode"], &records), calls.as_bytes());
    let listing = String::from_utf8(good(&["run"], &records)).unwrap();
    let expected = "record kind answer first second
1 1 0 0 0
2 2 0 0 0
3 4 0 3 0
4 7 0 2 3
5 7 0 3 2
6 7 0 2 1
7 5 0 1 0
8 7 12 0 0
9 7 0 10 3
10 8 0 8000 0
";
    assert_eq!(listing, expected);
}

#[test]
fn empty_input() {
    assert_eq!(good(&["run"], b""), b"record kind answer first second\n");
    assert_eq!(good(&["encode"], b""), b"");
    assert_eq!(good(&["decode"], b""), b"");
    assert_eq!(good(&["calls"], b""), b"line call answer first second\n");
    assert_eq!(good(&["state"], b""), b"");
    assert_eq!(good(&["convert"], b""), b"");
    assert_eq!(good(&["tree"], b""), b"");
    assert_eq!(good(&["entries"], b""), b"");
    assert!(good(&["stats"], b"").starts_with(b"records 0\nanswer_0 0\n"));
}

#[test]
fn stats_count_halves() {
    let calls = "setup 32\nopen 0\nmap 0 0 32 3\nprotect 0 31 1 1\ncoverage 0
protect 0 29 2 1\ncoverage 0\ncoverage 0\n";
    let records = good(&["encode"], calls.as_bytes());
    let counts = String::from_utf8(good(&["stats"], &records)).unwrap();
    assert!(counts.contains("\nhalf_down 2\n"));
    assert!(counts.contains("\nhalf_up 1\n"));
}

#[test]
fn stats_count_wishes() {
    // Frames 0 to 3, then 4 to 7 elsewhere; 4 is freed. One page gets it by its wish, as
    // by the old choice; two more wish 5, no multiple of 2.
    let calls = "setup 16\nopen 0\nmap 0 0 4 3\nmap 0 100 4 3\nunmap 0 100 1
map 0 4 1 3\nmap 0 5 2 3\nmap 0 5 2 3\n";
    let records = good(&["encode"], calls.as_bytes());
    let counts = String::from_utf8(good(&["stats"], &records)).unwrap();
    let wishes = "
wish_none 2
wish_met_other 0
wish_met_same 1
wish_no_multiple 1
wish_past 0
wish_first_held 0
wish_later_held 0
";
    assert!(counts.contains(wishes), "{counts}");
}

#[test]
fn growth_in_a_text() {
    // Pages 100 to 107 have frames 8 to 15, and 0 to 7 are free again.
    let calls = b"setup 32\nopen 0\nmap 0 0 8 3\nmap 0 100 8 3\nunmap 0 0 8
preview 0 108 8 3\nmap 0 108 8 3\ntranslate 0 0 108 1\n";
    let printed = |bug: Option<&str>| {
        let output = reference(&["calls"], bug, calls);
        assert!(output.status.success());
        let lines = String::from_utf8(output.stdout).unwrap();
        lines.lines().skip(6).collect::<Vec<&str>>().join("\n")
    };
    let right = "6 preview 0 1 1\n7 map 0 1 0\n8 translate 0 16 3";
    assert_eq!(printed(None), right);
    let wrong = "6 preview 0 1 2\n7 map 0 1 0\n8 translate 0 0 3";
    assert_eq!(printed(Some("ignored")), wrong);
    assert_eq!(printed(Some("same-rights")), right);
}

#[test]
fn reserved_rights_in_a_text() {
    let calls = "setup 32\nopen 0\nmap 0 4 11 2\nmap 0 4 11 6\nmap 0 4 11 8
map 0 4 11 3\nprotect 0 4 11 6\nprotect 0 4 11 7\n";
    let records = good(&["encode"], calls.as_bytes());
    assert_eq!(good(&["decode"], &records), calls.as_bytes());
    let listing = String::from_utf8(good(&["run"], &records)).unwrap();
    let expected = "record kind answer first second
1 1 0 0 0
2 2 0 0 0
3 4 17 0 0
4 4 17 0 0
5 4 6 0 0
6 4 0 3 0
7 6 17 0 0
8 6 0 11 0
";
    assert_eq!(listing, expected);
    let counts = String::from_utf8(good(&["stats"], &records)).unwrap();
    for line in ["answer_17 3", "map_answer_17 2", "protect_answer_17 1"] {
        assert!(counts.contains(&format!("\n{line}\n")), "{line}");
    }
    let printed = good(&["calls"], b"setup 32\nopen 0\npreview 0 4 11 2\n");
    assert!(printed.ends_with(b"\n3 preview 17 0 0\n"));
}

#[test]
fn wrong_use() {
    for args in [
        &["walk"][..],
        &[],
        &["gen", "1", "2", "wild"],
        &["gen", "x", "2", "big"],
        &["bench", "/nowhere/at/all"],
    ] {
        assert!(!reference(args, None, b"").status.success(), "{args:?}");
    }
    for command in ["encode", "calls", "entries"] {
        assert!(!reference(&[command], None, b"jump 3").status.success());
    }
    assert!(!reference(&["run"], Some("other"), b"").status.success());
}

#[test]
fn planted_bugs_turn_the_listing() {
    let bugs = [
        ("65", "sleep"),
        ("limit", "sleep"),
        ("keep", "sleep"),
        ("half", "fragment"),
        ("late", "mixed"),
        ("ignored", "grow"),
        ("unaligned", "grow"),
        ("past", "grow"),
        ("one-free", "grow"),
        ("smaller", "grow"),
        ("first-only", "grow"),
        ("across", "grow"),
        ("same-rights", "grow"),
    ];
    for (bug, style) in bugs {
        let records = good(&["gen", "2", "4000", style], b"");
        let right = good(&["run"], &records);
        assert_eq!(reference(&["run"], Some(""), &records).stdout, right);
        let wrong = reference(&["run"], Some(bug), &records);
        assert!(wrong.status.success());
        assert_ne!(wrong.stdout, right, "{bug}");
    }
}

#[test]
fn preview_in_a_text() {
    let calls = b"setup 32 # frames\nopen 0\n\npreview 0 4 11 3\nmap 0 4 11 3\n";
    let printed = |bug: Option<&str>| {
        let output = reference(&["calls"], bug, calls);
        assert!(output.status.success());
        String::from_utf8(output.stdout).unwrap()
    };
    let right = "line call answer first second
1 setup 0 0 0
2 open 0 0 0
4 preview 0 3 1
5 map 0 3 0
";
    assert_eq!(printed(None), right);
    assert_eq!(printed(Some("before")), right.replace("0 3 1", "0 3 0"));
    let refused = reference(&["encode"], None, calls);
    assert!(!refused.status.success());
    assert!(String::from_utf8_lossy(&refused.stderr).contains("line 4: "));
}

#[test]
fn conversions_in_a_text() {
    let calls = b"to_sv39 77829\nto_sv39 110597\nfrom_sv39 0x80000000000014c7
from_sv39 0x4000c7\n";
    let printed = |bug: Option<&str>| {
        let output = reference(&["calls"], bug, calls);
        assert!(output.status.success());
        String::from_utf8(output.stdout).unwrap()
    };
    let right = "line call answer first second
1 to_sv39 0 5319 0
2 to_sv39 0 5575 0
3 from_sv39 18 0 0
4 from_sv39 18 0 0
";
    assert_eq!(printed(None), right);
    let turned = [
        ("clean", "1 to_sv39 0 5191 0\n2 to_sv39 0 5447 0"),
        ("nine", "2 to_sv39 0 5831 0"),
        ("further", "3 from_sv39 0 77829 0"),
        ("above", "4 from_sv39 0 81920 0"),
    ];
    for (bug, wrong) in turned {
        let lines = printed(Some(bug));
        assert!(lines.contains(&format!("\n{wrong}\n")), "{bug}");
        let differ = lines.lines().zip(right.lines()).filter(|(l, r)| l != r);
        assert_eq!(differ.count(), wrong.lines().count(), "{bug}");
    }
    let refused = reference(&["encode"], None, calls);
    assert!(!refused.status.success());
    assert!(String::from_utf8_lossy(&refused.stderr).contains("line 1: "));
}

#[test]
fn trees_in_a_text() {
    let calls = b"tree_insert 0 8 0 3\ntree_insert 8 16 0xfffffff8 1\ntree_lookup 8
tree_lookup 16\ntree_remove 8\ntree_lookup 8\n";
    let printed = |bug: Option<&str>| {
        let output = reference(&["calls"], bug, calls);
        assert!(output.status.success());
        String::from_utf8(output.stdout).unwrap()
    };
    let right = "line call answer first second
1 tree_insert 0 0 0
2 tree_insert 0 0 0
3 tree_lookup 0 4096 1
4 tree_lookup 12 0 0
5 tree_remove 0 0 0
6 tree_lookup 12 0 0
";
    assert_eq!(printed(None), right);
    assert!(printed(Some("covered")).contains("\n4 tree_lookup 0 4104 1\n"));
    assert!(printed(Some("wrap")).contains("\n2 tree_insert 8 0 0\n"));
    assert!(printed(Some("steps")).contains("\n3 tree_lookup 0 4096 0\n"));
    let refused = reference(&["encode"], None, calls);
    assert!(!refused.status.success());
    assert!(String::from_utf8_lossy(&refused.stderr).contains("line 1: "));
}

/// A call on a lent tree, with four arguments.
fn on_a_tree(kind: u32, tree: &[u32], args: [u32; 4]) -> Vec<u8> {
    let mut words = vec![kind, tree.len() as u32];
    words.extend(tree);
    words.extend(args);
    words.iter().flat_map(|w| w.to_le_bytes()).collect()
}

#[test]
fn bug_fresh_in_a_lent_tree() {
    let mut empty = vec![0; 1537];
    empty[0] = 64;
    let bytes = on_a_tree(1, &empty, [0, 8, 0, 3]);
    let root = |bug: Option<&str>| reference(&["tree"], bug, &bytes).stdout[16];
    assert_eq!([root(None), root(Some("fresh"))], [0, 63]);
    assert!(!reference(&["tree"], None, &bytes[..bytes.len() - 1])
        .status
        .success());
}

#[test]
fn entries_in_words() {
    let entries = b"0x14c7 # read and write\n\n0\n22\nx\n";
    let output = reference(&["entries"], None, entries);
    assert!(!output.status.success());
    assert!(String::from_utf8_lossy(&output.stderr).contains("line 5: "));
    let said = "0x14c7: frame 5, rights rw-, in no range, word 77829
0x0: unmapped, word 0
0x16: flags R W U, frame 0, no word: valid (V) is clear
";
    assert_eq!(String::from_utf8(output.stdout).unwrap(), said);
}

#[test]
fn bug_late_in_a_text() {
    let calls = b"setup 32\nopen 0\nmap 0 1023 2 2\nprotect 0 0 0 6\npreview 0 1023 2 2
map 1 0 1 2\nprotect 0 0 0 10\n";
    let answers = |bug: Option<&str>| {
        let printed = String::from_utf8(reference(&["calls"], bug, calls).stdout).unwrap();
        let rows = printed.lines().skip(3);
        rows.map(|l| l.split(' ').nth(2).unwrap().to_string())
            .collect::<Vec<_>>()
    };
    assert_eq!(answers(None), ["17", "17", "17", "17", "6"]);
    assert_eq!(answers(Some("late")), ["8", "8", "8", "17", "6"]);
}

/// A translation of page 5 with this unit, as words lent. The pool has 8 frames,
/// space 0 is open and empty, and one record is appended.
fn translation_by(unit: &[u32]) -> Vec<u8> {
    let mut words: Vec<u32> = vec![7];
    let mut control = vec![0; 195];
    control[..3].copy_from_slice(&[8, 1, 1]);
    control[6..9].copy_from_slice(&[0, 0, 1]);
    let mut frames = vec![65535; 4096];
    frames[..8].fill(8192);
    frames[0] = 16387;
    for buffer in [control, frames, vec![0; 4096], vec![0; 2048]] {
        words.push(buffer.len() as u32);
        words.extend(buffer);
    }
    words.extend(unit);
    words.extend([0, 5, 1, 0]);
    words.iter().flat_map(|w| w.to_le_bytes()).collect()
}

#[test]
fn planted_bug_turns_the_state() {
    let mut unit = vec![0; 515];
    unit[512] = 32;
    let bytes = translation_by(&unit);
    let right = good(&["state"], &bytes);
    let wrong = reference(&["state"], Some("keep"), &bytes).stdout;
    assert_eq!(right[..12], wrong[..12]);
    assert_eq!(right[0], 12);
    // Only the number of records seen differs.
    let end = right.len() - 4;
    assert_eq!(right[..end], wrong[..end]);
    assert_eq!(
        (&right[end..], &wrong[end..]),
        (&[0; 4][..], &[1, 0, 0, 0][..])
    );
}

#[test]
fn bug_six_in_a_lent_unit() {
    // The first range entry has page 100, frame 100; page 5 is not mapped.
    let answers = |rights: u32| {
        let mut unit = vec![0; 515];
        unit[320..326].copy_from_slice(&[1, 0, 100, 101, 0, rights]);
        unit[512] = 32;
        let bytes = translation_by(&unit);
        [None, Some("six")].map(|bug| reference(&["state"], bug, &bytes).stdout[0])
    };
    for rights in [0, 1, 3, 4, 5, 7] {
        assert_eq!(answers(rights), [12, 12]);
    }
    for rights in [2, 8, 14] {
        assert_eq!(answers(rights), [2, 2]);
    }
    assert_eq!(answers(6), [2, 12]);
}

#[test]
fn bench_lines() {
    let dir = std::env::temp_dir();
    let file = dir.join(format!("reference-bench-{}", std::process::id()));
    std::fs::write(&file, good(&["gen", "1", "200", "mixed"], b"")).unwrap();
    let name = file.to_str().unwrap();
    let lines = String::from_utf8(good(&["bench", "-k", "2", name, name], b"")).unwrap();
    std::fs::remove_file(&file).unwrap();
    assert_eq!(lines.lines().count(), 2);
    for line in lines.lines() {
        let parts: Vec<&str> = line.split(' ').collect();
        assert_eq!(parts[..2], [name, "200"]);
        assert!(parts[2].parse::<f64>().unwrap() > 0.0);
    }
}
