//! Work that is shared between threads.

use std::sync::atomic::{AtomicUsize, Ordering};
use std::thread;

/// As many as the machine has cores.
pub fn threads() -> usize {
    thread::available_parallelism().map_or(1, usize::from)
}

/// Each thread takes the next part that is left, so that none is idle while there is one, and
/// keeps what it finds in a value of its own; these are given back.
pub fn shared<T: Default + Send>(parts: usize, work: impl Fn(&mut T, usize) + Sync) -> Vec<T> {
    let next = AtomicUsize::new(0);
    let take = || {
        let mut found = T::default();
        loop {
            match next.fetch_add(1, Ordering::Relaxed) {
                part if part < parts => work(&mut found, part),
                _ => return found,
            }
        }
    };
    thread::scope(|scope| {
        let started: Vec<_> = (0..threads()).map(|_| scope.spawn(take)).collect();
        let joined = started.into_iter().map(|thread| thread.join());
        joined
            .map(|found| found.expect("a thread that ends"))
            .collect()
    })
}
