//! The proved library beside the Rust's rules: the same steps, in one run of one program. tools/bench puts this file in the place of the
//! oracle's own src/bench.rs, where the Rust's rules and the reader of books and runs are at hand.
//!
//! Ours is a whole call: reading the book, reading the run, marking, and clearing the work area before and after; 'a step' is the time of a
//! call less that of a call with an empty run, divided by the steps. The Rust's is the rule's call alone, on terms that are built already.
use crate::checker::{self, Premise};
use crate::oracle::{read_book, read_run, RULES};
use std::time::{Duration, Instant};

// The Rust package of the library, wrapper/src/lib.rs.
mod yirtabun;

fn ours(book: &[u8], run: &[u8], work: &mut [u8]) -> yirtabun::Marked {
    yirtabun::check(book, run, yirtabun::MOST_VISITS, work)
}

const ROUNDS: usize = 6;

/// Microseconds of a call, the best of six windows of 5 ms: other load on the machine only adds.
fn best(mut call: impl FnMut()) -> f64 {
    let mut best = f64::MAX;
    for _ in 0..6 {
        let (mut calls, start) = (0u32, Instant::now());
        while start.elapsed() < Duration::from_millis(5) {
            call();
            calls += 1;
        }
        best = best.min(start.elapsed().as_secs_f64() / calls as f64);
    }
    best * 1e6
}

/// xorshift64
struct Random(u64);

impl Random {
    fn below(&mut self, n: u64) -> u64 {
        self.0 ^= self.0 << 13;
        self.0 ^= self.0 >> 7;
        self.0 ^= self.0 << 17;
        self.0 % n
    }
}

// ---- books and runs

#[derive(Default)]
struct Book {
    records: Vec<[u8; 32]>,
    numbers: std::collections::HashMap<[u8; 32], u16>,
}

impl Book {
    fn add(&mut self, r: [u8; 32]) -> u16 {
        let next = self.records.len() as u16;
        let records = &mut self.records;
        *self.numbers.entry(r).or_insert_with(|| {
            records.push(r);
            next
        })
    }

    fn integer(&mut self, v: i64) -> u16 {
        let mut r = [0; 32];
        r[0] = 1;
        r[4..12].copy_from_slice(&v.to_le_bytes());
        self.add(r)
    }

    fn atom(&mut self, name: u64) -> u16 {
        let mut r = [0; 32];
        (r[0], r[3]) = (4, 2);
        r[4..12].copy_from_slice(&name.to_le_bytes());
        self.add(r)
    }

    fn op(&mut self, o: u8, args: &[u16]) -> u16 {
        let mut r = [0; 32];
        (r[0], r[1], r[2]) = (5, o, args.len() as u8);
        for (k, a) in args.iter().enumerate() {
            r[4 + 2 * k..6 + 2 * k].copy_from_slice(&a.to_le_bytes());
        }
        self.add(r)
    }

    /// A sum of any length, nested where it has more than 14 parts.
    fn sum(&mut self, mut parts: Vec<u16>) -> u16 {
        while parts.len() > 14 {
            parts = parts.chunks(14).map(|c| if c.len() == 1 { c[0] } else { self.op(9, c) }).collect();
        }
        self.op(9, &parts)
    }

    fn bytes(&self) -> Vec<u8> {
        self.records.concat()
    }
}

type Step = (u8, Vec<u16>, Vec<u16>);

/// The steps again and again: `most` of them, or as many as 4,096 records take.
fn full_run(steps: &[Step], most: usize) -> (Vec<u8>, usize) {
    let (mut run, mut count) = (Vec::new(), 0);
    for (rule, clause, args) in steps.iter().cycle() {
        if count == most || run.len() / 4 + 1 + clause.len() + args.len() > 4096 {
            return (run, count);
        }
        run.extend([b'S', *rule, 0, 0]);
        for (mark, list) in [(b'C', clause), (b'A', args)] {
            for n in list {
                run.extend([mark, 0, *n as u8, (*n >> 8) as u8]);
            }
        }
        count += 1;
    }
    unreachable!()
}

/// A clause that `la_generic` accepts: lines (not (<= (+ (* c x) ..) d)) with small coefficients and arguments 1 to 5, and one last line that
/// is their weighted sum, reversed.
fn farkas(book: &mut Book, random: &mut Random, literals: usize, atoms: usize) -> Step {
    let (mut sum, mut sum_d) = (vec![0i64; atoms], 0);
    let (mut clause, mut args) = (Vec::new(), Vec::new());
    let mut line = |book: &mut Book, o: u8, coeffs: &[i64], d: i64| {
        let parts: Vec<u16> = coeffs
            .iter()
            .enumerate()
            .map(|(i, &c)| {
                let (x, n) = (book.atom(i as u64), book.integer(c));
                book.op(11, &[n, x])
            })
            .collect();
        let (left, right) = (book.sum(parts), book.integer(d));
        let relation = book.op(o, &[left, right]);
        clause.push(book.op(1, &[relation]));
    };
    for _ in 1..literals {
        let coeffs: Vec<i64> = (0..atoms).map(|_| (1 + random.below(9) as i64) * if random.below(2) == 0 { 1 } else { -1 }).collect();
        let (d, a) = (random.below(100) as i64, 1 + random.below(5) as i64);
        line(book, 6, &coeffs, d);
        args.push(book.integer(a));
        for (s, c) in sum.iter_mut().zip(&coeffs) {
            *s += a * c;
        }
        sum_d += a * d;
    }
    line(book, 8, &sum, sum_d + 1);
    args.push(book.integer(1));
    (5, clause, args)
}

/// S <= 3 and T >= 4 with sums S and T of the same many atoms, in the order of their numbers (then S is T) or in two random orders.
fn large_sum(book: &mut Book, random: &mut Random, atoms: u64, ordered: bool) -> Step {
    let mut parts: Vec<u16> = (0..atoms).map(|i| book.atom(i)).collect();
    let mut sum = |book: &mut Book| {
        if !ordered {
            for i in (1..parts.len()).rev() {
                parts.swap(i, random.below(i as u64 + 1) as usize);
            }
        }
        book.sum(parts.clone())
    };
    let (s, t) = (sum(book), sum(book));
    let (three, four, one) = (book.integer(3), book.integer(4), book.integer(1));
    let (a, b) = (book.op(6, &[s, three]), book.op(8, &[t, four]));
    let clause = vec![book.op(1, &[a]), book.op(1, &[b])];
    (5, clause, vec![one, one])
}

/// A product of sums against the same product from the other end.
fn product(book: &mut Book, factors: usize, width: u64) -> Step {
    let sums: Vec<u16> = (0..factors)
        .map(|f| {
            let parts: Vec<u16> = (0..width).map(|i| book.atom(f as u64 * width + i)).collect();
            book.op(9, &parts)
        })
        .collect();
    let reversed: Vec<u16> = sums.iter().rev().copied().collect();
    let (left, right) = (book.op(11, &sums), book.op(11, &reversed));
    (7, vec![book.op(4, &[left, right])], vec![])
}

// ---- a line of the table

fn compare(name: &str, book: &Book, steps: &[Step]) {
    let bytes = book.bytes();
    let mut work = vec![0u8; yirtabun::WORK];
    // A run makes at most 1,000,000 visits.
    let of_one = ours(&bytes, &full_run(steps, 1).0, &mut work).visits;
    let (run, count) = full_run(steps, 900_000 / of_one as usize);
    let marked = ours(&bytes, &run, &mut work);
    assert_eq!((marked.verdict, marked.steps as usize), (0, count), "{name}");
    let mut read = read_book(&bytes).unwrap();
    let list = read_run(&run, read.terms.len()).unwrap();
    let calls: Vec<_> = list
        .iter()
        .map(|s| {
            let terms = |l: &[usize]| l.iter().map(|&n| read.terms[n].clone()).collect::<Vec<_>>();
            (checker::get_rule(RULES[s.rule as usize], false, false).unwrap(), terms(&s.clause), terms(&s.args))
        })
        .collect();
    // In turn, so that what disturbs the machine for a while disturbs them alike.
    let (mut whole, mut reading, mut rust) = (f64::MAX, f64::MAX, f64::MAX);
    for _ in 0..ROUNDS {
        whole = whole.min(best(|| {
            ours(&bytes, &run, &mut work);
        }));
        reading = reading.min(best(|| {
            ours(&bytes, &[], &mut work);
        }));
        rust = rust.min(best(|| {
            for (rule, clause, args) in &calls {
                checker::call(*rule, &mut read.pool, clause, &[] as &[Premise], args).unwrap();
            }
        }));
    }
    rust /= count as f64;
    let step = (whole - reading) / count as f64;
    let records = book.records.len();
    println!(
        "{name:34} {records:5} {count:5} {:7} {rust:9.2} {step:9.2} {:6.1} {reading:9.1} {:6.1}",
        marked.visits as usize / count,
        rust / step,
        rust * count as f64 / whole
    );
}

pub fn main() {
    println!("microseconds, best window; the Rust's numbers by {}", rug::NUMBERS);
    println!("{:34} {:>5} {:>5} {:>7} {:>9} {:>9} {:>6} {:>9} {:>6}", "", "terms", "steps", "visits", "the Rust", "ours", "ratio", "book read", "whole");
    let mut random = Random(88172645463325252);
    for literals in [2, 5, 10, 20] {
        for atoms in [2, 5, 10] {
            let mut book = Book::default();
            let mut steps = Vec::new();
            while steps.len() < 20 && book.records.len() + literals * (2 * atoms + 5) < 2048 {
                steps.push(farkas(&mut book, &mut random, literals, atoms));
            }
            compare(&format!("la_generic, {literals} literals of {atoms} atoms"), &book, &steps);
        }
    }
    for (order, ordered, sizes) in [("in order", true, [10, 30, 100, 300, 1000, 1800]), ("in no order", false, [10, 30, 100, 300, 1000, 1700])] {
        for atoms in sizes {
            let mut book = Book::default();
            let step = large_sum(&mut book, &mut random, atoms, ordered);
            compare(&format!("la_generic, {atoms} atoms {order}"), &book, &[step]);
        }
    }
    for (factors, width) in [(2, 4), (2, 8), (3, 4), (6, 2)] {
        let mut book = Book::default();
        let step = product(&mut book, factors, width);
        compare(&format!("poly_simp, {factors} factors of {width} atoms"), &book, &[step]);
    }
    let mut book = Book::default();
    let mut steps = Vec::new();
    while book.records.len() + 4 * 9 < 2048 {
        steps.push(farkas(&mut book, &mut random, 4, 2));
    }
    while book.records.len() < 2048 {
        let next = book.records.len() as u64;
        book.atom(10000 + next);
    }
    compare("a full book and a full run", &book, &steps);
}
