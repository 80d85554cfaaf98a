//! Times the Rust crate `jsonb` and this repository's library in turn, in one process.
//!
//! `speed CASES ROUNDS` prints a line a case: its name, and the nanoseconds of a call of both, and of copying its results,
//! best of that many rounds; `inf` if a result is neither documents nor bytes.
//! `speed CASES counts` makes few calls of each side, Rust's first, for callgrind: see `counted`.
//! A line of CASES has the name of a case, of its call, its argument, another document and the document, in hexadecimal,
//! with tabs between.

mod answers;
mod case;
mod ours;
mod theirs;

use case::Case;
use std::time::Instant;

type Side = fn(&Case, usize) -> u64;

/// How long a batch of calls takes at least, in nanoseconds.
const BATCH: u128 = 500_000;
/// How many calls are counted: one that finds the allocator in its first state, then one and two, whose difference leaves out what
/// is done once for all calls.
const COUNTED: [usize; 3] = [1, 1, 2];

fn unhex(digits: &str) -> Vec<u8> {
    (0..digits.len() / 2).map(|i| u8::from_str_radix(&digits[2 * i..2 * i + 2], 16).expect("hexadecimal")).collect()
}

fn case(line: &str) -> Case {
    let words: Vec<&str> = line.split('\t').collect();
    Case {
        name: words[0].into(),
        call: words[1].into(),
        argument: unhex(words[2]),
        other: unhex(words[3]),
        document: unhex(words[4]),
        answer: None,
    }
}

fn nanoseconds(side: Side, case: &Case, times: usize) -> u128 {
    let began = Instant::now();
    std::hint::black_box(side(case, times));
    began.elapsed().as_nanos()
}

/// How many calls make a batch.
fn batch(side: Side, case: &Case) -> usize {
    let mut times = 1;
    while nanoseconds(side, case, times) < BATCH {
        times *= 2;
    }
    times
}

/// The best time of a call of each side, in turn.
fn best<const N: usize>(sides: [Side; N], case: &Case, rounds: usize) -> [f64; N] {
    let batches = sides.map(|side| batch(side, case));
    let mut best = [f64::INFINITY; N];
    for _ in 0..rounds {
        for i in 0..N {
            best[i] = best[i].min(nanoseconds(sides[i], case, batches[i]) as f64 / batches[i] as f64);
        }
    }
    best
}

/// The best time of a call of the Rust crate and of this library, and of copying the results.
fn times(case: &Case, rounds: usize) -> [f64; 3] {
    if case.answer.is_some() {
        return best([theirs::calls, ours::calls, answers::copies], case, rounds);
    }
    let [rust, rattle] = best([theirs::calls, ours::calls], case, rounds);
    [rust, rattle, f64::INFINITY]
}

/// Makes calls, whose cost callgrind dumps when this returns.
#[no_mangle]
#[inline(never)]
fn counted(side: Side, case: &Case, times: usize) -> u64 {
    side(case, times)
}

/// Panics unless both sides return the same lengths or counts. They write different sortable keys.
fn check(case: &Case) {
    let is_same = case.call == "sort_key" || theirs::calls(case, 1) == ours::calls(case, 1);
    assert!(is_same, "{}: the two sides return different lengths or counts", case.name);
}

fn count(case: &Case) {
    check(case);
    for side in [theirs::calls as Side, ours::calls] {
        for times in COUNTED {
            std::hint::black_box(counted(side, case, times));
        }
    }
}

fn main() {
    let words: Vec<String> = std::env::args().skip(1).collect();
    let text = std::fs::read_to_string(&words[0]).expect("a file of cases");
    let cases: Vec<Case> = text.lines().map(case).collect();
    if words[1] == "counts" {
        cases.iter().for_each(count);
        return;
    }
    let rounds = words[1].parse().expect("a number of rounds");
    for mut case in cases {
        check(&case);
        case.answer = theirs::answer(&case);
        let [rust, rattle, alone] = times(&case, rounds);
        println!("{}\t{rust:.1}\t{rattle:.1}\t{alone:.1}", case.name);
    }
}
