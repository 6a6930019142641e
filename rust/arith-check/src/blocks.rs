//! Shares numbered blocks of work between threads. The result does not depend
//! on how many there are.

use std::sync::atomic::{AtomicBool, AtomicU64, Ordering};
use std::sync::mpsc::{channel, Receiver, RecvTimeoutError};
use std::time::{Duration, Instant};

/// How long to wait between two lines of progress.
const PATIENCE: Duration = Duration::from_secs(3);

/// What there is to do, and how to speak of it.
pub struct Job {
    /// What the lines of progress begin with.
    pub name: &'static str,
    /// What one piece of work is called, in the plural.
    pub unit: &'static str,
    /// How many blocks there are; they are numbered from 0.
    pub blocks: u64,
    /// How many pieces of work all blocks have together.
    pub total: u64,
    /// How many threads to use.
    pub threads: usize,
}

/// What the threads know of each other.
struct Shared {
    next: AtomicU64,
    done: AtomicU64,
    stop: AtomicBool,
}

/// Runs `check` on every block and gives the sum of the pieces that it says it
/// did, or the difference that it found in the lowest block.
pub fn run<D, F>(job: &Job, check: F) -> Result<u64, D>
where
    D: Send,
    F: Fn(u64) -> Result<u64, D> + Sync,
{
    let shared = Shared {
        next: AtomicU64::new(0),
        done: AtomicU64::new(0),
        stop: AtomicBool::new(false),
    };
    let (shared, check) = (&shared, &check);
    let (sender, receiver) = channel();
    let found = std::thread::scope(|scope| {
        for _ in 0..job.threads {
            let sender = sender.clone();
            scope.spawn(move || {
                if let Some(found) = work(job, shared, check) {
                    // The receiver outlives every sender, so this cannot fail.
                    let _ = sender.send(found);
                }
            });
        }
        drop(sender);
        collect(job, shared, &receiver)
    });
    // Blocks are begun in order and every one begun is finished, so no lower
    // block is left unseen when a difference stops the rest.
    match found.into_iter().min_by_key(|(block, _)| *block) {
        None => Ok(shared.done.load(Ordering::Relaxed)),
        Some((_, difference)) => Err(difference),
    }
}

/// One thread's work: takes block after block until none is left, or one
/// differs, here or in another thread.
fn work<D>(job: &Job, shared: &Shared, check: impl Fn(u64) -> Result<u64, D>) -> Option<(u64, D)> {
    while !shared.stop.load(Ordering::Relaxed) {
        let block = shared.next.fetch_add(1, Ordering::Relaxed);
        if block >= job.blocks {
            break;
        }
        match check(block) {
            Ok(pieces) => shared.done.fetch_add(pieces, Ordering::Relaxed),
            Err(difference) => {
                shared.stop.store(true, Ordering::Relaxed);
                return Some((block, difference));
            }
        };
    }
    None
}

/// Gathers what the threads find until the last has ended, and says on stderr
/// now and then how far they are.
fn collect<D>(job: &Job, shared: &Shared, receiver: &Receiver<(u64, D)>) -> Vec<(u64, D)> {
    let start = Instant::now();
    let mut found = Vec::new();
    loop {
        match receiver.recv_timeout(PATIENCE) {
            Ok(one) => found.push(one),
            Err(RecvTimeoutError::Timeout) => say(job, shared, start),
            Err(RecvTimeoutError::Disconnected) => break,
        }
    }
    say(job, shared, start);
    found
}

/// The line of progress.
fn say(job: &Job, shared: &Shared, start: Instant) {
    let done = shared.done.load(Ordering::Relaxed) as f64;
    let seconds = start.elapsed().as_secs_f64();
    eprintln!(
        "{}: {:.1} % after {:.1} s, {:.2} million {} per second",
        job.name,
        100.0 * done / job.total as f64,
        seconds,
        done / seconds / 1e6,
        job.unit
    );
}

#[cfg(test)]
mod tests {
    use super::*;

    fn job(blocks: u64, threads: usize) -> Job {
        Job {
            name: "test",
            unit: "pieces",
            blocks,
            total: 10 * blocks,
            threads,
        }
    }

    #[test]
    fn every_block_is_done_once() {
        for threads in [1, 2, 7] {
            let seen: Vec<AtomicU64> = (0..100).map(|_| AtomicU64::new(0)).collect();
            let result: Result<u64, ()> = run(&job(100, threads), |block| {
                seen[block as usize].fetch_add(1, Ordering::Relaxed);
                Ok(10)
            });
            assert_eq!(result, Ok(1000));
            assert!(seen.iter().all(|n| n.load(Ordering::Relaxed) == 1));
        }
    }

    #[test]
    fn the_lowest_of_several_differences_is_given() {
        for threads in [1, 2, 3, 8] {
            let check = |block| if block % 7 == 5 { Err(block) } else { Ok(10) };
            assert_eq!(run(&job(1000, threads), check), Err(5));
        }
    }

    #[test]
    fn nothing_to_do_is_done() {
        assert_eq!(run(&job(0, 2), |_| Err(())), Ok(0));
    }
}
