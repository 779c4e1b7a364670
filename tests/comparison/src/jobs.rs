//! Independent pieces of work, run on all cores until one has failed. Each is reproducible from its
//! name.
//!
//! Settings, as environment variables:
//! * REPLICA_SEED: another first seed
//! * REPLICA_EFFORT: percent of the usual amount
//! * REPLICA_PART: run in parts, for example "2/6" for the second sixth of the jobs
//! * REPLICA_ONLY: one job as named in a message of failure, for example "call list 17"
//! * REPLICA_TRACE: print every call before it is made

use std::panic::{self, RefUnwindSafe};
use std::sync::atomic::{AtomicUsize, Ordering};
use std::thread;
use std::time::Instant;

pub trait Job: Sync + RefUnwindSafe {
    /// What a run tried.
    type Count: Default + Send;

    fn name(&self) -> String;
    fn run(&self) -> Self::Count;
    /// Counts of several runs add up.
    fn add(sum: &mut Self::Count, count: &Self::Count);
}

/// Seeds from the first on, as many as the effort makes of the usual number.
pub fn seeds(usual: u64) -> impl Iterator<Item = u64> {
    (first_seed()..).take((usual * effort()).div_ceil(100) as usize)
}

pub fn first_seed() -> u64 {
    setting("REPLICA_SEED", 1) * 1_000_000
}

/// Percent of the usual amount.
pub fn effort() -> u64 {
    setting("REPLICA_EFFORT", 100)
}

fn setting(name: &str, usual: u64) -> u64 {
    match std::env::var(name) {
        Ok(text) => text
            .parse()
            .unwrap_or_else(|_| panic!("{name} is a number")),
        Err(_) => usual,
    }
}

/// Runs the jobs that the settings leave, and prints how many and how long. Exits if one fails.
pub fn run<J: Job>(jobs: Vec<J>) -> J::Count {
    let start = Instant::now();
    let jobs = chosen(jobs);
    match on_all_cores(&jobs) {
        Ok(count) => {
            let seconds = start.elapsed().as_secs_f64();
            println!("{} jobs in {seconds:.1} s", jobs.len());
            count
        }
        Err(failed) => fail(&failed.join(", ")),
    }
}

/// Ends a run. What was never reached is a failure, unless a single job was asked for.
pub fn end(never: &[String]) {
    let one_job = std::env::var("REPLICA_ONLY").is_ok();
    if !one_job && !never.is_empty() {
        fail(&never.join("; "));
    }
    println!("passed");
}

/// The jobs that the settings leave.
fn chosen<J: Job>(mut jobs: Vec<J>) -> Vec<J> {
    if let Ok(only) = std::env::var("REPLICA_ONLY") {
        jobs.retain(|job| job.name() == only);
    }
    if let Ok(part) = std::env::var("REPLICA_PART") {
        let numbers: Option<(usize, usize)> = part
            .split_once('/')
            .and_then(|(part, parts)| Some((part.parse().ok()?, parts.parse().ok()?)));
        let (part, parts) = numbers.expect("REPLICA_PART is like 2/6");
        let mut number = 0;
        jobs.retain(|_| {
            number += 1;
            number % parts == part % parts
        });
    }
    jobs
}

/// Works through the jobs until none is left or one has failed, here or in another thread.
fn work<J: Job>(jobs: &[J], next: &AtomicUsize) -> Result<J::Count, String> {
    let mut count = J::Count::default();
    while let Some(job) = jobs.get(next.fetch_add(1, Ordering::Relaxed)) {
        match panic::catch_unwind(|| job.run()) {
            Ok(done) => J::add(&mut count, &done),
            Err(_) => {
                next.store(jobs.len(), Ordering::Relaxed);
                return Err(job.name());
            }
        }
    }
    Ok(count)
}

/// Runs the jobs on all cores. The names of failed ones come back instead of a count.
fn on_all_cores<J: Job>(jobs: &[J]) -> Result<J::Count, Vec<String>> {
    let threads = thread::available_parallelism().map_or(1, |cores| cores.get());
    let next = AtomicUsize::new(0);
    let results: Vec<_> = thread::scope(|scope| {
        let workers: Vec<_> = (0..threads)
            .map(|_| scope.spawn(|| work(jobs, &next)))
            .collect();
        let joined = workers.into_iter().map(|worker| worker.join());
        joined.map(|result| result.expect("caught")).collect()
    });
    let mut count = J::Count::default();
    let mut failed = Vec::new();
    for result in results {
        match result {
            Ok(done) => J::add(&mut count, &done),
            Err(name) => failed.push(name),
        }
    }
    if failed.is_empty() {
        Ok(count)
    } else {
        Err(failed)
    }
}

fn fail(message: &str) -> ! {
    eprintln!("FAILED: {message}");
    std::process::exit(1);
}
