//! The second program, run beside: its listing of a record file, and its calls on lent words and trees.
use crate::kernel::{Answer, Call, World, UNIT};
use std::io::{BufReader, BufWriter, Read, Write};
use std::path::PathBuf;
use std::process::{Child, ChildStdin, ChildStdout, Command, Stdio};

/// The repository's folder.
pub fn root() -> PathBuf {
    PathBuf::from(env!("CARGO_MANIFEST_DIR")).join("..")
}

pub fn reference() -> PathBuf {
    root().join("reference/target/release/reference")
}

pub fn coretrace() -> PathBuf {
    root().join("target/bin/coretrace")
}

/// More than any listing compared here has.
const MOST: u64 = 1 << 26;

/// What a program writes, given its input.
pub fn output(program: &PathBuf, words: &[&str], input: &[u8]) -> Vec<u8> {
    let mut child = Command::new(program).args(words).stdin(Stdio::piped()).stdout(Stdio::piped()).spawn().unwrap();
    let mut stdin = child.stdin.take().unwrap();
    let bytes = input.to_vec();
    let writer = std::thread::spawn(move || {
        // a program that stops early closes its input
        let _ = stdin.write_all(&bytes);
    });
    let mut out = Vec::new();
    child.stdout.take().unwrap().take(MOST).read_to_end(&mut out).unwrap();
    assert!((out.len() as u64) < MOST, "{} does not stop writing", program.display());
    writer.join().unwrap();
    assert!(child.wait().unwrap().success(), "{} stopped with an error", program.display());
    out
}

/// The second program, asked by its standard input and answering by its standard output.
struct Asked {
    child: Child,
    to: BufWriter<ChildStdin>,
    from: BufReader<ChildStdout>,
}

impl Asked {
    fn start(command: &str) -> Asked {
        let mut child = Command::new(reference()).arg(command).stdin(Stdio::piped()).stdout(Stdio::piped()).spawn().unwrap();
        let to = BufWriter::with_capacity(1 << 16, child.stdin.take().unwrap());
        let from = BufReader::with_capacity(1 << 16, child.stdout.take().unwrap());
        Asked { child, to, from }
    }
}

impl Drop for Asked {
    fn drop(&mut self) {
        let _ = self.child.kill();
        let _ = self.child.wait();
    }
}

/// The second program's calls on lent words.
pub struct Second(Asked);

fn put(to: &mut impl Write, words: &[u32]) {
    let mut bytes = Vec::with_capacity(4 * words.len());
    for w in words {
        bytes.extend_from_slice(&w.to_le_bytes());
    }
    to.write_all(&bytes).unwrap();
}

fn get(from: &mut impl Read, n: usize) -> Vec<u32> {
    let mut bytes = vec![0; 4 * n];
    from.read_exact(&mut bytes).unwrap();
    bytes.chunks(4).map(|b| u32::from_le_bytes([b[0], b[1], b[2], b[3]])).collect()
}

fn answer(words: &[u32]) -> Answer {
    Answer {
        number: words[0],
        first: words[1],
        second: words[2],
    }
}

impl Second {
    pub fn start() -> Second {
        Second(Asked::start("state"))
    }

    pub fn call(&mut self, world: &mut World, call: Call) -> Answer {
        put(&mut self.0.to, &[call.kind]);
        for words in [&world.control, &world.frames, &world.pages, &world.ranges] {
            put(&mut self.0.to, &[words.len() as u32]);
            put(&mut self.0.to, words);
        }
        put(&mut self.0.to, &world.unit);
        put(&mut self.0.to, &call.arguments);
        self.0.to.flush().unwrap();
        let head = get(&mut self.0.from, 3);
        for words in [&mut world.control, &mut world.frames, &mut world.pages, &mut world.ranges] {
            let n = get(&mut self.0.from, 1)[0] as usize;
            *words = get(&mut self.0.from, n);
        }
        world.unit = get(&mut self.0.from, UNIT);
        answer(&head)
    }
}

/// The directions of a conversion: a page word to an Sv39 entry, and back.
pub const TO_SV39: u32 = 0;
pub const FROM_SV39: u32 = 1;

/// The second program's conversions.
pub struct Conversions(Asked);

impl Conversions {
    pub fn start() -> Conversions {
        Conversions(Asked::start("convert"))
    }

    pub fn convert(&mut self, direction: u32, numbers: &[u64]) -> Vec<Answer> {
        put(&mut self.0.to, &[direction, numbers.len() as u32]);
        let bytes: Vec<u8> = numbers.iter().flat_map(|n| n.to_le_bytes()).collect();
        self.0.to.write_all(&bytes).unwrap();
        self.0.to.flush().unwrap();
        let words = get(&mut self.0.from, 3 * numbers.len());
        words.chunks(3).map(answer).collect()
    }
}

/// Asks for a lookup of every page.
const EVERY_PAGE: u32 = 4;

/// The second program's calls on lent trees.
pub struct Trees(Asked);

impl Trees {
    pub fn start() -> Trees {
        Trees(Asked::start("tree"))
    }

    fn ask(&mut self, tree: &[u32], call: Call) {
        put(&mut self.0.to, &[call.kind, tree.len() as u32]);
        put(&mut self.0.to, tree);
        put(&mut self.0.to, &call.arguments);
        self.0.to.flush().unwrap();
    }

    pub fn call(&mut self, tree: &mut Vec<u32>, call: Call) -> Answer {
        self.ask(tree, call);
        let head = get(&mut self.0.from, 4);
        *tree = get(&mut self.0.from, head[3] as usize);
        answer(&head[..3])
    }

    /// A lookup of each page from 0 to 1,023.
    pub fn every_page(&mut self, tree: &[u32]) -> Vec<Answer> {
        let call = Call {
            kind: EVERY_PAGE,
            arguments: [0; 4],
        };
        self.ask(tree, call);
        get(&mut self.0.from, 3 * 1024).chunks(3).map(answer).collect()
    }
}
