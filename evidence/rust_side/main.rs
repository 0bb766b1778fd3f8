//! Rows of crates/bench over the sources of sctp-proto: evidence/rust_side.sh builds this program.
//!
//!     rust_side              prints what came out of a run of each row
//!     rust_side times        prints each row and the nanoseconds of the fastest of many runs, as `bench times --against` reads them
//!     rust_side times WORD   the same of the rows in whose name WORD stands
//!     rust_side heap N       prints the heap of N pairs of a sender and a receiver
mod exchange;
#[cfg(feature = "heap")]
mod heap;
mod limit;
mod parts;

use std::hint::black_box;
use std::sync::LazyLock;
use std::time::{Duration, Instant};

/// At most so many units of a row are measured, in as many runs as that takes, and no run begins after so long.
const UNITS: u32 = 100_000;
const LONGEST: Duration = Duration::from_millis(500);

/// What a run gave, and how long it took.
pub struct Measured<T = usize> {
    given: T,
    elapsed: Duration,
}

impl<T> Measured<T> {
    /// The same run, with what it gave turned into something else, after its time was taken.
    pub fn map<U>(self, turn: impl FnOnce(T) -> U) -> Measured<U> {
        Measured { given: turn(self.given), elapsed: self.elapsed }
    }
}

pub fn timed<T>(run: impl FnOnce() -> T) -> Measured<T> {
    let start = Instant::now();
    let given = black_box(run());
    Measured { elapsed: start.elapsed(), given }
}

/// What is run, and of how many equal units a run has.
pub struct Row {
    name: String,
    units: u32,
    run: Box<dyn Fn() -> Measured>,
}

impl Row {
    pub fn new(name: impl Into<String>, units: u32, run: impl Fn() -> Measured + 'static) -> Row {
        Row { name: name.into(), units, run: Box::new(run) }
    }

    /// The nanoseconds of a unit in the fastest run.
    fn fastest(&self) -> u128 {
        let begun = Instant::now();
        let mut fastest = Duration::MAX;
        for _ in 0..(UNITS / self.units).max(3) {
            fastest = fastest.min((self.run)().elapsed);
            if begun.elapsed() > LONGEST {
                break;
            }
        }
        fastest.as_nanos() / u128::from(self.units)
    }
}

fn all_rows() -> Vec<Row> {
    if cfg!(feature = "zero") {
        exchange::rows("sum 0").into_iter().chain(limit::rows()).chain(exchange::calls()).chain(parts::rows()).collect()
    } else {
        exchange::rows("CRC-32C").into_iter().chain(parts::sums()).collect()
    }
}

fn print_times(word: &str) {
    all_rows().iter().filter(|row| row.name.contains(word)).for_each(|row| println!("{}\t{}", row.name, row.fastest()));
}

fn main() {
    LazyLock::force(&exchange::NOW);
    let words: Vec<String> = std::env::args().skip(1).collect();
    match words.iter().map(String::as_str).collect::<Vec<_>>()[..] {
        [] => all_rows().iter().for_each(|row| println!("{}: {}", row.name, (row.run)().given)),
        ["times"] => print_times(""),
        ["times", word] => print_times(word),
        #[cfg(feature = "heap")]
        ["heap", pairs] => heap::run(pairs.parse().expect("a number of pairs")),
        _ => panic!("rust_side [times [WORD] | heap N]"),
    }
}
