//! Work shared among threads.

/// What each of some workers makes of its share; a worker is told its number and how many there are.
pub fn shared<T: Send>(work: impl Fn(usize, usize) -> T + Sync) -> Vec<T> {
    let workers = std::thread::available_parallelism().map_or(1, |many| many.get().min(4));
    let work = &work;
    std::thread::scope(|scope| {
        let started: Vec<_> = (0..workers).map(|worker| scope.spawn(move || work(worker, workers))).collect();
        started.into_iter().map(|worker| worker.join().expect("a worker does not fail")).collect()
    })
}
