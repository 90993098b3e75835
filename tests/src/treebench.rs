//! Times of the proved calls on trees of 8, 32 and 128 ranges.
use crate::random::Random;
use crate::tree::{insert, lookup, proved, remove};
use crate::treeform::{empty, Range};
use std::hint::black_box;
use std::time::Instant;

/// A tree of the first n of the 128 ranges of 8 pages, in an order that the seed gives, and the range that came last.
fn tree_of(n: usize, seed: u64) -> (Vec<u32>, Range) {
    let mut random = Random::new(seed);
    let mut bases: Vec<u32> = (0..128).map(|k| 8 * k).collect();
    for k in (1..bases.len()).rev() {
        bases.swap(k, random.below(k as u64 + 1) as usize);
    }
    let mut tree = empty();
    let mut last = [0; 4];
    for &base in &bases[..n] {
        last = [base, base + 8, 2 * base, 3];
        assert_eq!(proved(&mut tree, insert(last)).number, 0);
    }
    (tree, last)
}

/// Microseconds of a call, in the fastest of the rounds.
fn fastest(rounds: u64, calls: u32, mut call: impl FnMut(u32)) -> f64 {
    let mut best = f64::INFINITY;
    for _ in 0..rounds {
        let start = Instant::now();
        for k in 0..calls {
            call(k);
        }
        best = best.min(start.elapsed().as_secs_f64() * 1e6 / f64::from(calls));
    }
    best
}

/// A copy of the tree, and a call on the copy.
fn on_copy(tree: &[u32], copy: &mut [u32], call: impl Fn(&mut [u32])) {
    copy.copy_from_slice(tree);
    call(black_box(copy));
}

pub fn bench(rounds: u64) -> bool {
    println!("ranges copy check lookup insertion removal");
    for n in [8, 32, 128] {
        let (full, last) = tree_of(n, 1);
        let mut less = full.clone();
        assert_eq!(proved(&mut less, remove(last[0])).number, 0);
        let mut copy = full.clone();
        let plain = fastest(rounds, 1000, |_| on_copy(&full, &mut copy, |_| ()));
        // page 1,024 is refused right after the check
        let check = fastest(rounds, 1000, |_| assert_eq!(proved(&mut copy, lookup(1024)).number, 8));
        copy.copy_from_slice(&full);
        let look = fastest(rounds, 1024, |page| {
            black_box(proved(&mut copy, lookup(page)));
        });
        let more = fastest(rounds, 1000, |_| on_copy(&less, &mut copy, |t| assert_eq!(proved(t, insert(last)).number, 0)));
        let fewer = fastest(rounds, 1000, |_| on_copy(&full, &mut copy, |t| assert_eq!(proved(t, remove(last[0])).number, 0)));
        println!("{n} {plain:.2} {check:.2} {look:.2} {more:.2} {fewer:.2}");
    }
    true
}
