//! How long recovery takes, the library's and the simple one's in turn, so that what else the machine does falls on both.

use crate::implementations::simple::SIMPLE;
use crate::implementations::TESTED;
use crate::interface::{Arguments, Calls, Family, Name, Reply};
use crate::volume::{Call, Layout, Volume};
use std::fmt;
use std::hint::black_box;
use std::thread::sleep;
use std::time::{Duration, Instant};

/// A time is the median of so many rounds; each takes as many calls as the clock needs, in microseconds, to tell them.
const ROUNDS: usize = 101;
const LEAST: f64 = 20.0;

/// How often a table is measured before it is said to be above its limit, and how long is waited between, so that not all tries fall into
/// what else the machine does.
const TRIES: usize = 3;
const PAUSE: Duration = Duration::from_secs(5);

/// The time of a recovery by the library and by the simple one, in microseconds.
#[derive(Clone, Copy)]
pub struct Times {
    library: f64,
    simple: f64,
}

impl Times {
    pub fn ratio(&self) -> f64 {
        self.library / self.simple
    }
}

impl fmt::Display for Times {
    fn fmt(&self, f: &mut fmt::Formatter) -> fmt::Result {
        write!(f, "library {:.2} µs, simple {:.2} µs, ratio {:.3}", self.library, self.simple, self.ratio())
    }
}

/// The times on a volume, measured again where they are above the limit: the lowest.
pub fn measured(volume: &Volume, limit: f64) -> Times {
    lowest(volume, TESTED, limit)
}

fn lowest(volume: &Volume, tested: &dyn Calls, limit: f64) -> Times {
    let mut best = medians(volume, tested);
    for _ in 1..TRIES {
        if best.ratio() <= limit {
            break;
        }
        sleep(PAUSE);
        let again = medians(volume, tested);
        best = if again.ratio() < best.ratio() { again } else { best };
    }
    best
}

/// The medians of alternating rounds.
fn medians(volume: &Volume, tested: &dyn Calls) -> Times {
    let mut v = volume.clone();
    let mut sides = [tested, SIMPLE].map(|calls| (calls, calls_needed(&mut v, calls), Vec::with_capacity(ROUNDS)));
    for _ in 0..ROUNDS {
        for (calls, number, times) in &mut sides {
            times.push(round(&mut v, *calls, *number));
        }
    }
    let [library, simple] = sides.map(|(_, _, mut times)| {
        times.sort_by(f64::total_cmp);
        times[ROUNDS / 2]
    });
    Times { library, simple }
}

/// How many calls a round takes; those made for it warm up.
fn calls_needed(v: &mut Volume, calls: &dyn Calls) -> u32 {
    round(v, calls, 3);
    (LEAST / round(v, calls, 3)).ceil().clamp(1.0, 1000.0) as u32
}

/// The time of one of so many recoveries.
fn round(v: &mut Volume, calls: &dyn Calls, number: u32) -> f64 {
    let start = Instant::now();
    for _ in 0..number {
        black_box(black_box(&mut *v).call(calls, &Call::Recover));
    }
    1e6 * start.elapsed().as_secs_f64() / f64::from(number)
}

/// The simple recovery so often.
struct Repeated(u32);

impl Calls for Repeated {
    fn call(&self, name: Name, a: &mut Arguments) -> Reply {
        for _ in 1..self.0 {
            black_box(SIMPLE.call(name, a));
        }
        SIMPLE.call(name, a)
    }
}

/// What is measured of the simple recovery beside itself, made once and three times, is once and three times as long.
pub fn assert_told() -> String {
    let v = Volume::one_ring(Layout { family: Family::Bpcc, width: 32 }.sizes(256, 1024));
    let [once, thrice] = [(1, 1.1), (3, 3.3)].map(|(number, limit)| lowest(&v, &Repeated(number), limit).ratio());
    assert!((0.8..1.25).contains(&once) && (2.4..3.75).contains(&thrice), "{once:.3} and {thrice:.3} times as long");
    format!("{once:.3} and {thrice:.3} times as long")
}
