//! Times, by the processor time of this process: what else the machine does counts as little as can be.

use std::ffi::c_long;

const ROUNDS: usize = 5;
const ROUND: f64 = 20_000.0;

/// With calls that take so long that this has passed, no more rounds are begun.
const ENOUGH: f64 = 300_000.0;

extern "C" {
    fn clock() -> c_long;
}

/// The processor time of this process so far, in µs: POSIX has a million of the clock's units in a second.
pub fn passed() -> f64 {
    // SAFETY: C's function, without arguments.
    unsafe { clock() as f64 }
}

/// The least time that one of these works took, in µs, each in several rounds and by turns. A round repeats the work until it has taken long enough.
pub fn least<const N: usize>(mut works: [&mut dyn FnMut(); N]) -> [f64; N] {
    let mut times = [f64::MAX; N];
    let mut taken = [0.0; N];
    for _ in 0..ROUNDS {
        for (place, work) in works.iter_mut().enumerate() {
            if taken[place] < ENOUGH {
                let (once, all) = round(work);
                times[place] = once.min(times[place]);
                taken[place] += all;
            }
        }
    }
    times
}

/// What the work takes once, and how long it was repeated.
fn round(work: &mut dyn FnMut()) -> (f64, f64) {
    let (start, mut number) = (passed(), 0.0);
    loop {
        work();
        number += 1.0;
        let taken = passed() - start;
        if taken >= ROUND {
            return (taken / number, taken);
        }
    }
}
