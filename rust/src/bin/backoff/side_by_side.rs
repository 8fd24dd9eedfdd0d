//! Work on several parts at the same time.

use crate::failure::Failure;
use std::thread::{scope, Builder};

/// The answers for all parts, in their order, each part on a thread of its own; one part alone needs none. A refusal is the first part's that has one.
pub fn side_by_side<P: Send, T: Send>(parts: Vec<P>, work: impl Fn(P) -> Result<T, String> + Sync) -> Result<Vec<T>, Failure> {
    if parts.len() < 2 {
        return parts.into_iter().map(|part| work(part).map_err(Failure::Told)).collect();
    }
    let work = &work;
    scope(|scope| {
        let spawn =
            |part| Builder::new().spawn_scoped(scope, move || work(part)).map_err(|error| Failure::Told(format!("no thread: {error}")));
        let threads: Vec<_> = parts.into_iter().map(spawn).collect();
        let answer = |thread: Result<std::thread::ScopedJoinHandle<Result<T, String>>, Failure>| match thread?.join() {
            Ok(answer) => answer.map_err(Failure::Told),
            Err(_) => Err(Failure::Told("a thread ended badly".to_string())),
        };
        threads.into_iter().map(answer).collect()
    })
}
