//! Medians of many rounds, in which the implementations take turns.

#[repr(C)]
struct Time {
    seconds: i64,
    nanoseconds: i64,
}

extern "C" {
    fn clock_gettime(clock: i32, time: *mut Time) -> i32;
}

/// Nanoseconds that this thread has run: what other programs take is left out.
fn now() -> f64 {
    const THREAD_CPUTIME: i32 = 3;
    let mut time = Time {
        seconds: 0,
        nanoseconds: 0,
    };
    unsafe { clock_gettime(THREAD_CPUTIME, &mut time) };
    time.seconds as f64 * 1e9 + time.nanoseconds as f64
}

/// Nanoseconds of one call, for each of so many implementations. A round calls each so often that its clock reading is worth
/// something.
pub fn medians(count: usize, mut call: impl FnMut(usize)) -> Vec<f64> {
    let times: Vec<u32> = (0..count).map(|who| repeats(|| call(who))).collect();
    let rounds = 41;
    let mut seen = vec![Vec::with_capacity(rounds); count];
    for _ in 0..rounds {
        for who in 0..count {
            let start = now();
            for _ in 0..times[who] {
                call(who);
            }
            seen[who].push((now() - start) / f64::from(times[who]));
        }
    }
    seen.into_iter().map(median).collect()
}

/// How many calls take about a millisecond; these calls warm the buffers.
fn repeats(mut call: impl FnMut()) -> u32 {
    call();
    let start = now();
    let mut n = 0;
    while now() - start < 1e6 {
        call();
        n += 1;
    }
    n
}

fn median(mut times: Vec<f64>) -> f64 {
    times.sort_by(f64::total_cmp);
    times[times.len() / 2]
}
