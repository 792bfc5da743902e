//! Work on all processors.
use std::sync::atomic::{AtomicUsize, Ordering::Relaxed};
use std::sync::Mutex;
use std::thread;

/// Runs every job; the first fault of any ends them all.
pub fn shared<T: Sync>(jobs: &[T], run: impl Fn(&T) -> Result<(), String> + Sync) -> Result<(), String> {
    let (next, fault) = (AtomicUsize::new(0), Mutex::new(Ok(())));
    let work = || {
        while let Some(job) = jobs.get(next.fetch_add(1, Relaxed)) {
            if let Err(said) = run(job) {
                next.store(jobs.len(), Relaxed);
                *fault.lock().unwrap() = Err(said);
            }
        }
    };
    thread::scope(|scope| {
        for _ in 0..thread::available_parallelism().map_or(1, usize::from) {
            scope.spawn(work);
        }
    });
    fault.into_inner().unwrap()
}
