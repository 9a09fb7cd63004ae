//! A million cases, each put to every entry point that applies to it, against the reference.
//!
//! The cases depend on the seed alone, not on the threads. `QEWARIS_SEED` and `QEWARIS_CASES` choose another run, `QEWARIS_FIRST`
//! the number of its first case. Prints how often each entry point gave each answer and wrote the largest name and file, how often
//! each string met each escape, and how often each setting met each sort of IPv6 address; fails where the library differs from the paper,
//! an answer that can occur did not, a largest length was not met or was passed, or an escape or a sort of address was not met.

use judge::case::Case;
use judge::compare::{try_case, Difference};
use judge::coverage::Table;
use judge::{generate, small_report};
use std::sync::atomic::{AtomicU64, Ordering};
use std::time::Instant;

const SEED: u64 = 20_260_101;
const CASES: u64 = 1_000_000;

/// How many cases a thread takes at a time.
const BATCH: u64 = 1_000;

/// How many differing cases are made small and printed, each of another sort.
const PRINTED: usize = 8;

/// What a thread found.
#[derive(Default)]
struct Findings {
    table: Table,
    differing: Vec<(u64, Case, Vec<Difference>)>,
    count: u64,
}

fn main() {
    let number = |name: &str, default: u64| match std::env::var(name) {
        Ok(text) => text.parse().unwrap_or_else(|_| panic!("{name} is no number: {text}")),
        Err(_) => default,
    };
    let (seed, first, cases) = (
        number("QEWARIS_SEED", SEED),
        number("QEWARIS_FIRST", 0),
        number("QEWARIS_CASES", CASES),
    );
    println!("{cases} cases from number {first}, seed {seed}");
    let start = Instant::now();
    let findings = run(seed, first, first + cases);
    println!("{}\n{:.1} seconds", findings.table.print(), start.elapsed().as_secs_f64());
    print_differing(&findings);
    let missing = findings.table.faults();
    missing.iter().for_each(|fault| println!("{fault}"));
    assert!(findings.count == 0, "{} cases differ", findings.count);
    assert!(
        cases < CASES || missing.is_empty(),
        "the cases do not meet the answers, the largest lengths, the escapes and the addresses that can occur"
    );
}

/// Runs the cases on the available threads.
fn run(seed: u64, first: u64, end: u64) -> Findings {
    let next = AtomicU64::new(first);
    let threads = std::thread::available_parallelism().map_or(1, usize::from);
    let mut all = Findings::default();
    std::thread::scope(|scope| {
        let workers: Vec<_> = (0..threads).map(|_| scope.spawn(|| work(seed, &next, end))).collect();
        for worker in workers {
            let found = worker.join().expect("a thread ran to its end");
            all.table.merge(&found.table);
            all.differing.extend(found.differing);
            all.count += found.count;
        }
    });
    all.differing.sort_by_key(|(index, _, _)| *index);
    all
}

/// Runs batches of cases until none is left.
fn work(seed: u64, next: &AtomicU64, end: u64) -> Findings {
    let mut findings = Findings::default();
    loop {
        let batch = next.fetch_add(BATCH, Ordering::Relaxed);
        if batch >= end {
            return findings;
        }
        for index in batch..end.min(batch + BATCH) {
            let case = generate::case(seed, index);
            let trial = try_case(&case);
            findings.table.add(&case, &trial.answers);
            if !trial.differences.is_empty() {
                findings.count += 1;
                if is_new_sort(&findings.differing, &trial.differences) {
                    findings.differing.push((index, case, trial.differences));
                }
            }
        }
    }
}

/// Where a difference is, and the two numbers: differences that agree in these are of one sort.
fn sort_of(difference: &Difference) -> (&str, (u8, u8)) {
    (&difference.place, difference.numbers)
}

fn is_new_sort(differing: &[(u64, Case, Vec<Difference>)], differences: &[Difference]) -> bool {
    let known = |difference: &Difference| {
        differing
            .iter()
            .flat_map(|(_, _, known)| known)
            .any(|known| sort_of(known) == sort_of(difference))
    };
    differing.len() < 50 && !differences.iter().all(known)
}

fn print_differing(findings: &Findings) {
    for (index, case, _) in findings.differing.iter().take(PRINTED) {
        println!("\ncase {index} differs; made small:\n{}", small_report(case));
    }
}
