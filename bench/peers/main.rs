//! Programs to measure `retro run` beside, without proofs: each answers a script of one timeline or more.
//!
//!     rustc -O -o peers bench/peers/main.rs
//!     ./peers replay|same|best < SCRIPT
//!
//! `replay` performs the rows again, as one writes it by hand; `same` has the designs of crates/ in plain Rust; `best` is
//! the fastest that was written for these measurements, of any design.

use std::io::{self, BufRead, Write};

mod best_dict;
mod best_lines;
mod best_pq;
#[path = "moments/chunk.rs"]
mod chunk;
#[path = "pieces/entry_list.rs"]
mod entry_list;
#[path = "dictionary/index.rs"]
mod index;
#[path = "dictionary/labels.rs"]
mod labels;
mod leaves;
#[path = "moments/lifetimes.rs"]
mod lifetimes;
#[path = "moments/moments.rs"]
mod moments;
#[path = "dictionary/past.rs"]
mod past;
#[path = "pieces/piece.rs"]
mod piece;
mod replay;
mod rows;
mod same_dict;
mod same_fused;
mod same_lines;
mod same_pq;
mod session;
#[path = "dictionary/spans.rs"]
mod spans;
mod timeline;
mod tree;
#[path = "dictionary/weighted.rs"]
mod weighted;

use rows::{Kind, Past};
use session::{Make, Script};

fn replayed(kind: Kind) -> Box<dyn Past> {
    Box::new(replay::Replay::new(kind))
}

fn same(kind: Kind) -> Box<dyn Past> {
    match kind {
        Kind::Dict => Box::new(same_dict::SameDict::new()),
        Kind::Pq => Box::new(same_pq::SamePq::new()),
        Kind::Pqf => Box::new(same_fused::SameFused::new()),
        _ => Box::new(same_lines::SameLines::new(kind)),
    }
}

fn best(kind: Kind) -> Box<dyn Past> {
    match kind {
        Kind::Dict => Box::new(best_dict::BestDict::new()),
        Kind::Pq | Kind::Pqf => Box::new(best_pq::BestPq::new()),
        _ => Box::new(best_lines::BestLines::new(kind)),
    }
}

/// Answers what there is before it waits for more.
fn run(make: Make) -> io::Result<()> {
    let mut input = io::BufReader::with_capacity(1 << 16, io::stdin().lock());
    let mut output = io::stdout().lock();
    let (mut script, mut line, mut answers) = (Script::new(make), String::new(), Vec::new());
    while input.read_line(&mut line)? > 0 {
        script.line(&line, &mut answers);
        line.clear();
        if answers.len() >= 1 << 16 || !input.buffer().contains(&b'\n') {
            output.write_all(&answers)?;
            output.flush()?;
            answers.clear();
        }
    }
    output.write_all(&answers)?;
    output.flush()
}

fn main() -> io::Result<()> {
    match std::env::args().nth(1).as_deref() {
        Some("replay") => run(replayed),
        Some("same") => run(same),
        Some("best") => run(best),
        _ => panic!("one word is wanted: replay, same or best"),
    }
}
