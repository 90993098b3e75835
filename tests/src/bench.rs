//! Times of both programs on the same record files, in one run.
use crate::second::{coretrace, output, reference};
use std::path::PathBuf;
use std::process::{Command, Stdio};
use std::time::Instant;

/// How often each program runs. They run in turn, so that what else the machine does slows both.
const ROUNDS: u32 = 15;

/// Microseconds of a record, in one run.
fn time(program: &PathBuf, words: &[&str], file: &PathBuf, records: f64) -> f64 {
    let input = std::fs::File::open(file).unwrap();
    let start = Instant::now();
    let status = Command::new(program).args(words).stdin(input).stdout(Stdio::null()).status().unwrap();
    assert!(status.success());
    start.elapsed().as_secs_f64() * 1e6 / records
}

pub fn bench(records: u64) -> bool {
    println!("style records coretrace second ratio");
    for style in ["mixed", "big", "fragment"] {
        let bytes = output(&reference(), &["gen", "1", &records.to_string(), style], &[]);
        let file = std::env::temp_dir().join(format!("compare-bench-{}-{style}", std::process::id()));
        std::fs::write(&file, &bytes).unwrap();
        let (mut ours, mut theirs) = (f64::INFINITY, f64::INFINITY);
        for _ in 0..ROUNDS {
            ours = ours.min(time(&coretrace(), &[], &file, records as f64));
            theirs = theirs.min(time(&reference(), &["run"], &file, records as f64));
        }
        std::fs::remove_file(&file).unwrap();
        println!("{style} {records} {ours:.1} {theirs:.1} {:.2}", ours / theirs);
    }
    true
}
