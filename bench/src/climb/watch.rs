//! Calls that are watched: one that takes too long is not waited for.

use std::hint::black_box;
use std::sync::mpsc::{channel, Sender};
use std::sync::Arc;
use std::thread;
use std::time::{Duration, Instant};

use bwlchareg::{Number, Refusal};

use crate::listing::{Listing, CELLS};

/// So many cells are lent for a record: of what takes long for each of its
/// cells, records are short.
const RECORD_CELLS: usize = 16_384;

/// What the calls of a thread are lent.
struct Buffers {
    sets: Vec<u32>,
    record: Vec<Number>,
}

/// Something to be done on the other thread.
type Job = Box<dyn FnOnce(&mut Buffers) + Send>;

/// Times calls on another thread. A call of the library cannot be stopped; one
/// that takes too long is left to itself, and a new thread does the next.
pub struct Watch {
    limit: Duration,
    jobs: Sender<Job>,
}

impl Watch {
    /// Waits so long for a call and no longer.
    pub fn new(limit: Duration) -> Watch {
        Watch {
            limit,
            jobs: worker(),
        }
    }

    /// The list of a listing, empty if there is no minimal set, and its time in
    /// nanoseconds, unless it is over the limit.
    pub fn list(&mut self, listing: &Arc<Listing>) -> Option<(Vec<u32>, f64)> {
        let listing = Arc::clone(listing);
        self.watched(move |buffers| {
            let (count, time) = timed(|| listing.library(&mut buffers.sets));
            (buffers.sets[..count.unwrap_or(0)].to_vec(), time)
        })
    }

    /// The length of the record of a set of the list, or why there is none, and
    /// the time of writing it in nanoseconds, unless it is over the limit.
    pub fn write(
        &mut self,
        listing: &Arc<Listing>,
        set: u32,
    ) -> Option<(Result<usize, Refusal>, f64)> {
        let listing = Arc::clone(listing);
        self.watched(move |buffers| timed(|| listing.write(set, &mut buffers.record)))
    }

    /// What a call gives, and its time in nanoseconds, unless it is over the
    /// limit.
    fn watched<Value: Send + 'static>(
        &mut self,
        call: impl FnOnce(&mut Buffers) -> (Value, Duration) + Send + 'static,
    ) -> Option<(Value, f64)> {
        let (done, answer) = channel();
        let job = move |buffers: &mut Buffers| {
            // If it took too long, nobody waits for the answer.
            let _ = done.send(call(buffers));
        };
        let sent = self.jobs.send(Box::new(job));
        sent.expect("a thread that waits for calls");
        match answer.recv_timeout(self.limit) {
            Ok((value, time)) if time <= self.limit => Some((value, time.as_nanos() as f64)),
            _ => {
                self.jobs = worker();
                None
            }
        }
    }
}

/// A new thread that does what it is sent.
fn worker() -> Sender<Job> {
    let (jobs, to_do) = channel::<Job>();
    thread::spawn(move || {
        let mut buffers = Buffers {
            sets: vec![0; CELLS],
            record: vec![0; RECORD_CELLS],
        };
        to_do.into_iter().for_each(|job| job(&mut buffers));
    });
    jobs
}

/// What a call gives, and its time.
fn timed<Value>(call: impl FnOnce() -> Value) -> (Value, Duration) {
    let start = Instant::now();
    let value = black_box(call());
    (value, start.elapsed())
}

#[cfg(test)]
mod tests {
    use super::Watch;
    use crate::families;
    use crate::listing::Listing;
    use bwlchareg::Refusal;
    use reference::generate::wallets::Wallet;
    use reference::shop;
    use std::sync::Arc;
    use std::time::Duration;

    const LONG: Duration = Duration::from_secs(60);

    fn listing(wallet: &Wallet) -> Arc<Listing> {
        Arc::new(Listing::of(wallet))
    }

    #[test]
    fn a_call_over_the_limit_is_left() {
        let shop = listing(&families::shop(&shop::T));
        let mut watch = Watch::new(LONG);
        let (list, time) = watch.list(&shop).expect("a list in time");
        assert_eq!(list, [7, 8]);
        assert!((1.0..60e9).contains(&time));
        watch.limit = Duration::from_nanos(1);
        assert!(watch.list(&shop).is_none());
        watch.limit = LONG;
        assert!(watch.list(&shop).is_some());
    }

    #[test]
    fn a_record_has_its_length_or_a_refusal() {
        let mut watch = Watch::new(LONG);
        let mut written = |wallet: Wallet, set: u32| {
            let (answer, _) = watch.write(&listing(&wallet), set).expect("an answer");
            answer.map_err(|refusal| refusal.number)
        };
        let shop = || families::shop(&shop::T);
        assert_eq!(written(shop(), 7), Ok(6));
        assert_eq!(written(shop(), 15), Err(Refusal::NOT_LISTED));
        let (sixteen, all) = (families::sixteen_levels(), (1 << 16) - 1);
        assert_eq!(written(sixteen, all), Err(Refusal::LONGER_RECORD));
    }
}
