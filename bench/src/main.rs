// Compares the proved search with a plain one on the same books: that they answer the same, and how long each takes.
mod book;
mod cases;
mod ours;
mod plain;

use book::{Answer, Book};
use ours::Numbers;
use std::hint::black_box;
use std::time::{Duration, Instant};

// How many samples the median is taken of, and how long one has to last.
const SAMPLES: usize = 11;

const SAMPLE: Duration = Duration::from_millis(5);

// Seconds for one run, over `runs` runs.
fn sample(runs: u32, run: &dyn Fn()) -> f64 {
    let begun = Instant::now();
    for _ in 0..runs {
        run();
    }
    begun.elapsed().as_secs_f64() / f64::from(runs)
}

// How many runs a sample needs to last long enough.
fn runs_for(run: &dyn Fn()) -> u32 {
    let mut runs = 1;
    while sample(runs, run) * f64::from(runs) < SAMPLE.as_secs_f64() {
        runs *= 2;
    }
    runs
}

fn median(mut times: Vec<f64>) -> f64 {
    times.sort_by(f64::total_cmp);
    times[times.len() / 2]
}

// The medians of several things to run, sampled in turn so that what else the machine does falls on all of them.
fn medians<const N: usize>(all: [&dyn Fn(); N]) -> [f64; N] {
    let runs = all.map(runs_for);
    let mut times = [(); N].map(|()| Vec::new());
    for _ in 0..SAMPLES {
        for i in 0..N {
            times[i].push(sample(runs[i], all[i]));
        }
    }
    times.map(median)
}

// One line of the report, in microseconds.
fn report(name: &str, answer: Answer, ours: f64, loading: f64, plain: f64) {
    let found = answer.found.map_or("none".to_string(), |s| format!("{s:#x}"));
    println!(
        "| {name} | {found} | {} | {:.1} | {:.1} | {:.1} | {:.2} | {:.2} |",
        answer.tried,
        ours * 1e6,
        loading * 1e6,
        plain * 1e6,
        ours / plain,
        (ours - loading) / plain
    );
}

fn compare(book: &Book) {
    let numbers = Numbers::of(book);
    let answer = plain::search(book);
    assert_eq!(numbers.search(book.start), answer, "{}", book.name);
    // No set is left from the last number on: what remains is the load of the tables and the naming of the rules.
    assert_eq!(numbers.search(u64::MAX), Answer { found: None, tried: 0 }, "{}", book.name);
    let [ours, loading, plain] = medians([
        &|| {
            black_box(black_box(&numbers).search(book.start));
        },
        &|| {
            black_box(black_box(&numbers).search(u64::MAX));
        },
        &|| {
            black_box(plain::search(black_box(book)));
        },
    ]);
    report(book.name, answer, ours, loading, plain);
}

fn main() {
    println!("| book | found | tried | ours, µs | of that loading, µs | plain, µs | ours / plain | without loading |");
    println!("|---|---|---|---|---|---|---|---|");
    for book in cases::cases() {
        compare(&book);
    }
}
