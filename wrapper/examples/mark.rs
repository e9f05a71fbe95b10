//! mark BOOK RUN [LIMIT]: marks a run over a book, and says by its exit status whether all steps were accepted: 0 if all are and there is at
//! least one, 1 if a step is refused or there are none, 2 where nothing was judged. It says what tools/mark_status.c says.
use std::io::Write;
use std::process::ExitCode;
use yirtabun::{check, on_enough_stack, Marked, MOST_VISITS, WORK};

const REFUSED: u8 = 1;
const BAD: u8 = 2;

/// The limit that a word of digits gives.
fn limit_of(word: &str) -> Result<u64, String> {
    let visits = if word.bytes().all(|b| b.is_ascii_digit()) { word.parse().ok() } else { None };
    visits
        .filter(|v| (1..=MOST_VISITS).contains(v))
        .ok_or(format!("mark: LIMIT is not a number from 1 to {MOST_VISITS}: {word}"))
}

/// How many of the first steps are assumed.
fn assumed(run: &[u8], steps: u32) -> usize {
    run.chunks_exact(4).filter(|r| r[0] == b'S').take(steps as usize).filter(|r| r[1] == 0).count()
}

fn said(run: &[u8], m: Marked) -> String {
    let none = if m.verdict == 0 && m.steps == 0 { "no steps: the run is empty, and nothing was marked\n" } else { "" };
    let assumed = assumed(run, m.steps);
    format!("verdict {}\naccepted steps {}\nvisits {}\nassumed steps {assumed}\n{none}", m.verdict, m.steps, m.visits)
}

fn status(m: Marked) -> u8 {
    match m.verdict {
        0 if m.steps > 0 => 0,
        1..=8 => BAD,
        _ => REFUSED,
    }
}

fn mark(words: &[String]) -> Result<u8, String> {
    let (book, run, limit) = match words {
        [book, ..] if book.starts_with('-') => return Err("usage: mark BOOK RUN [LIMIT]".into()),
        [book, run] => (book, run, MOST_VISITS),
        [book, run, limit] => (book, run, limit_of(limit)?),
        _ => return Err("usage: mark BOOK RUN [LIMIT]".into()),
    };
    let read = |path: &String| std::fs::read(path).map_err(|e| format!("{path}: {e}"));
    let (book, run) = (read(book)?, read(run)?);
    let m = on_enough_stack(|| check(&book, &run, limit, &mut vec![0; WORK]));
    std::io::stdout().write_all(said(&run, m).as_bytes()).map_err(|e| format!("mark: standard output: {e}"))?;
    Ok(status(m))
}

fn main() -> ExitCode {
    let words: Vec<String> = std::env::args().skip(1).collect();
    mark(&words).map_or_else(
        |why| {
            eprintln!("{why}");
            ExitCode::from(BAD)
        },
        ExitCode::from,
    )
}
