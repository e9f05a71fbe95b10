//! Yirtabun for Rust: the proved entry points, with slices and structs in place of pointers and bytes.
//!
//! Every function takes any bytes, any lengths and any limit. What is proved of each is in `crates/yirtabun/src/lib.rt`. They allocate nothing,
//! and need stack: see [`STACK`].

/// The length that a work area must have.
pub const WORK: usize = 65536;
/// An elaboration never needs more than this in its out areas.
pub const OUT_RUN: usize = 16384;
pub const OUT_TAIL: usize = 65536;
/// The largest limit of visits; a larger one is refused with verdict 1.
pub const MOST_VISITS: u64 = 1_000_000;
/// A thread with this many bytes of stack has more than twice what a call needs: over the deepest books `poly_simp` takes 728 kB. Rust's
/// threads have as much unless they are given less. `tools/stack` measures it; the proofs say nothing of stack.
pub const STACK: usize = 2_097_152;

unsafe extern "C" {
    fn yirtabun_check(
        book: *const u8,
        book_len: usize,
        run: *const u8,
        run_len: usize,
        limit: u32,
        work: *mut u8,
        work_len: usize,
        answer: *mut u8,
        answer_len: usize,
    ) -> u32;
    fn yirtabun_elaborate(
        book: *const u8,
        book_len: usize,
        run: *const u8,
        run_len: usize,
        limit: u32,
        work: *mut u8,
        work_len: usize,
        out_run: *mut u8,
        out_run_len: usize,
        out_tail: *mut u8,
        out_tail_len: usize,
        answer: *mut u8,
        answer_len: usize,
    ) -> u32;
    fn yirtabun_written(out_run: *const u8, out_run_len: usize, bytes: usize) -> usize;
}

/// The answer to a marking.
#[derive(Clone, Copy, Debug, PartialEq, Eq)]
pub struct Marked {
    /// 0, or document 01's number of the refusal.
    pub verdict: u32,
    pub steps: u32,
    pub visits: u32,
}

/// The answer to an elaboration.
#[derive(Clone, Copy, Debug, PartialEq, Eq)]
pub struct Elaborated {
    pub marked: Marked,
    /// The bytes written to the out run.
    pub run: usize,
    /// The bytes written to the out tail.
    pub tail: usize,
}

/// Does what is asked on a thread that has as much stack as any call needs.
pub fn on_enough_stack<T: Send>(work: impl FnOnce() -> T + Send) -> T {
    std::thread::scope(|scope| {
        let thread = std::thread::Builder::new().stack_size(STACK).spawn_scoped(scope, work);
        thread.expect("a thread").join().unwrap_or_else(|panic| std::panic::resume_unwind(panic))
    })
}

/// The limit as the library takes it. One that it has no room for becomes 0, and is refused as every limit above the range is.
fn narrow(limit: u64) -> u32 {
    u32::try_from(limit).unwrap_or(0)
}

fn number(answer: &[u8], k: usize) -> u32 {
    u32::from_le_bytes(answer[4 * k..4 * k + 4].try_into().unwrap())
}

fn marked(answer: &[u8]) -> Marked {
    Marked { verdict: number(answer, 0), steps: number(answer, 1), visits: number(answer, 2) }
}

/// Marks a run over a book. The work area is zeros afterwards. A run of no steps has verdict 0 and no accepted steps.
pub fn check(book: &[u8], run: &[u8], limit: u64, work: &mut [u8]) -> Marked {
    let mut answer = [0; 12];
    // Slices are never null and those of one call do not overlap, since three of them are borrowed mutably.
    unsafe {
        yirtabun_check(
            book.as_ptr(),
            book.len(),
            run.as_ptr(),
            run.len(),
            narrow(limit),
            work.as_mut_ptr(),
            work.len(),
            answer.as_mut_ptr(),
            answer.len(),
        );
    }
    marked(&answer)
}

/// Marks a run and writes the elaboration of its accepted steps. The work area is zeros afterwards, and so is what is not written of the
/// out areas.
pub fn elaborate(
    book: &[u8],
    run: &[u8],
    limit: u64,
    work: &mut [u8],
    out_run: &mut [u8],
    out_tail: &mut [u8],
) -> Elaborated {
    let mut answer = [0; 20];
    // As in `check`.
    unsafe {
        yirtabun_elaborate(
            book.as_ptr(),
            book.len(),
            run.as_ptr(),
            run.len(),
            narrow(limit),
            work.as_mut_ptr(),
            work.len(),
            out_run.as_mut_ptr(),
            out_run.len(),
            out_tail.as_mut_ptr(),
            out_tail.len(),
            answer.as_mut_ptr(),
            answer.len(),
        );
    }
    Elaborated { marked: marked(&answer), run: number(&answer, 3) as usize, tail: number(&answer, 4) as usize }
}

/// The written part of the out run, given the byte count of the answer; empty where the count is above the area or not a multiple of 4.
pub fn written(out_run: &[u8], bytes: usize) -> &[u8] {
    // As in `check`.
    let n = unsafe { yirtabun_written(out_run.as_ptr(), out_run.len(), bytes) };
    &out_run[..n]
}

#[cfg(test)]
mod tests {
    use super::*;

    fn example(name: &str) -> (Vec<u8>, Vec<u8>) {
        let read = |end: &str| std::fs::read(format!("{}/../examples/{name}.{end}", env!("CARGO_MANIFEST_DIR"))).unwrap();
        (read("book"), read("run"))
    }

    /// Document 01's examples get the answers of the table, on memory that is not clean, and every byte is left as it should be.
    #[test]
    fn examples() {
        let answers = std::fs::read_to_string(concat!(env!("CARGO_MANIFEST_DIR"), "/../examples/answers")).unwrap();
        let mut tried = 0;
        for line in answers.lines().filter(|l| !l.starts_with('#')) {
            let mut words = line.split(' ');
            let (book, run) = example(words.next().unwrap());
            let mut next = || words.next().unwrap().parse().unwrap();
            let want = Marked { verdict: next(), steps: next(), visits: next() };
            let mut work = vec![7; WORK];
            assert_eq!(check(&book, &run, 1000, &mut work), want, "{line}");
            assert!(work.iter().all(|&x| x == 0));
            let (mut work, mut out_run, mut out_tail) = (vec![7; WORK], vec![7; OUT_RUN], vec![7; OUT_TAIL]);
            let e = elaborate(&book, &run, 1000, &mut work, &mut out_run, &mut out_tail);
            assert_eq!(e.marked, want, "{line}");
            assert_eq!(written(&out_run, e.run).len(), e.run);
            assert!(work.iter().chain(&out_run[e.run..]).chain(&out_tail[e.tail..]).all(|&x| x == 0));
            tried += 1;
        }
        assert!(tried > 16);
    }

    const REFUSED_1: Marked = Marked { verdict: 1, steps: 0, visits: 0 };

    #[test]
    fn wrong_lengths() {
        let (book, run) = example("K1");
        let mut work = vec![7; 10];
        assert_eq!(check(&book, &run, 1000, &mut work), REFUSED_1);
        assert_eq!(work, [0; 10]);
        assert_eq!(written(&[1, 2, 3, 4, 5], 4), [1, 2, 3, 4]);
        assert!(written(&[1, 2, 3, 4, 5], 3).is_empty());
        assert!(written(&[1, 2, 3, 4], 8).is_empty());
    }

    /// A limit above 32 bits is refused, and not cut: cut to 5 it would be enough for K1's four visits.
    #[test]
    fn limits() {
        let (book, run) = example("K1");
        let cut = (1u64 << 32) + 5;
        assert_eq!(cut as u32, 5);
        for limit in [0, MOST_VISITS + 1, u32::MAX as u64, 1 << 32, cut, u64::MAX] {
            let (mut work, mut out_run, mut out_tail) = (vec![7; WORK], vec![7; OUT_RUN], vec![7; OUT_TAIL]);
            assert_eq!(check(&book, &run, limit, &mut work), REFUSED_1, "{limit}");
            let e = elaborate(&book, &run, limit, &mut work, &mut out_run, &mut out_tail);
            assert_eq!(e, Elaborated { marked: REFUSED_1, run: 0, tail: 0 }, "{limit}");
        }
        for limit in [4, cut as u32 as u64, MOST_VISITS] {
            assert_eq!(check(&book, &run, limit, &mut vec![7; WORK]), Marked { verdict: 0, steps: 1, visits: 4 }, "{limit}");
        }
    }

    /// Where a length is 0 its pointer may be null.
    #[test]
    fn no_bytes() {
        use std::ptr::{null, null_mut};
        let (book, run) = example("K3");
        assert!(book.is_empty());
        let mut work = vec![7; WORK];
        let (w, n) = (work.as_mut_ptr(), work.len());
        unsafe {
            assert_eq!(yirtabun_check(null(), 0, run.as_ptr(), run.len(), 1000, w, n, null_mut(), 0), 30);
            assert_eq!(yirtabun_check(null(), 0, null(), 0, 1000, w, n, null_mut(), 0), 0);
            assert_eq!(yirtabun_check(null(), 0, null(), 0, 1000, null_mut(), 0, null_mut(), 0), 1);
            let (out, tail, answer) = (null_mut(), null_mut(), null_mut());
            assert_eq!(yirtabun_elaborate(null(), 0, null(), 0, 1000, w, n, out, 0, tail, 0, answer, 0), 0);
            assert_eq!(yirtabun_written(null(), 0, 0), 0);
            assert_eq!(yirtabun_written(null(), 0, 4), 0);
        }
    }

    /// (= x (- (- .. x))), 2,046 deep, is the deepest that rule 7 can be given; the book's last record is the equation.
    #[test]
    fn deepest() {
        let operation = |operator: u8, arguments: &[u16]| {
            let mut record = [0; 32];
            record[..3].copy_from_slice(&[5, operator, arguments.len() as u8]);
            for (k, a) in arguments.iter().enumerate() {
                record[4 + 2 * k..6 + 2 * k].copy_from_slice(&a.to_le_bytes());
            }
            record
        };
        let mut book = vec![[0; 32]];
        (book[0][0], book[0][3]) = (4, 2);
        book.extend((0..2046).map(|k| operation(10, &[k])));
        book.push(operation(4, &[0, 2046]));
        let run = [b'S', 7, 0, 0, b'C', 0, 0xff, 7];
        let m = on_enough_stack(|| check(&book.concat(), &run, MOST_VISITS, &mut vec![7; WORK]));
        assert_eq!((m.verdict, m.steps), (0, 1));
    }
}
