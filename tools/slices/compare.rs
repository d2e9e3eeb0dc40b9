// Compares the compiled search with the source's own, slice by slice. The seed is fixed, so every run compares the same
// slices. Prints how many were compared, or the first difference in full with status 1.
#[path = "../oracle/signals.rs"]
#[allow(dead_code)]
mod signals;

use qoaudio::slices::{encode as source, State};
use signals::Random;

extern "C" {
    fn slices_encode(
        history: &mut [i32; 4],
        weights: &mut [i32; 4],
        samples: *const i16,
        length: usize,
        start: usize,
        stride: usize,
        n: usize,
        sf: &mut usize,
    ) -> u64;
}

fn rattle(mut state: State, samples: &[i16], start: usize, stride: usize, n: usize) -> (u64, usize, State) {
    assert!(0 < n && n <= 20 && start + (n - 1) * stride < samples.len());
    assert!(state.1.iter().all(|w| w.unsigned_abs() <= 1 << 29));
    let mut sf = 0;
    let word = unsafe {
        slices_encode(&mut state.0, &mut state.1, samples.as_ptr(), samples.len(), start, stride, n, &mut sf)
    };
    (word, sf, state)
}

/// A 16-bit number: at an end, near one, small, or any.
fn sample(r: &mut Random, kind: u32) -> i16 {
    match kind {
        0 => r.next() as i16,
        1 => [i16::MIN, i16::MAX, 0, 1, -1, -32767, 32766][(r.next() % 7) as usize],
        2 => (r.next() % 64) as i16 - 32,
        _ => (r.next() % 4096) as i16 - 2048,
    }
}

fn number(r: &mut Random, kind: u32, bound: i64) -> i32 {
    match kind {
        0 => ((((r.next() as i64) << 31) ^ r.next() as i64).rem_euclid(2 * bound + 1) - bound) as i32,
        1 => [-bound, bound, 0, 1 - bound, bound - 1][(r.next() % 5) as usize] as i32,
        2 => ((r.next() % 65536) as i64 - 32768).clamp(-bound, bound) as i32,
        _ => ((r.next() % 40000) as i64 - 20000).clamp(-bound, bound) as i32,
    }
}

/// A predictor: new, within 16 bits, as a frame can leave it, or at the search's own bound.
fn state(r: &mut Random) -> State {
    let (h, w) = match r.next() % 6 {
        0 => return ([0; 4], [0, 0, -8192, 16384]),
        1 | 2 => (32768i64 - 1, 32767i64),
        3 => (32767, 32768 + 17920 * 256),
        4 => (32767, 1 << 29),
        _ => (i32::MAX as i64, 1 << 29),
    };
    let kinds = [r.next() % 4, r.next() % 4];
    (
        [(); 4].map(|_| number(r, kinds[0], h)),
        [(); 4].map(|_| number(r, kinds[1], w)),
    )
}

fn main() {
    let count: u64 = std::env::args().nth(1).map_or(1_500_000, |n| n.parse().unwrap());
    let mut r = Random(2026);
    let mut lengths = [0u64; 21];
    let made = ["speech", "sweep", "noise", "silence", "square"].map(|kind| signals::signal(kind, 100_000, 2));
    for i in 0..count {
        let n = 1 + (r.next() % 20) as usize;
        let stride = 1 + (r.next() % 8) as usize;
        let start = r.next() as usize % stride;
        let kind = r.next() % 10;
        // The source's loop stops before start + n * stride; both read the same n samples.
        let samples: Vec<i16> = if kind >= 5 {
            // a stretch of one of the test signals, the stride's channels side by side
            let whole = &made[(kind - 5) as usize];
            let at = r.next() as usize % (whole.len() - start - n * stride);
            whole[at..at + start + n * stride].to_vec()
        } else if kind == 4 {
            // a square wave from end to end, the hardest for the predictor
            (0..start + n * stride).map(|k| if (k / stride) % 2 == 0 { 32767 } else { -32768 }).collect()
        } else {
            (0..start + n * stride).map(|_| sample(&mut r, kind)).collect()
        };
        let from = state(&mut r);
        let (a, b) = (source(from, &samples, start, stride, n), rattle(from, &samples, start, stride, n));
        if a != b {
            println!("difference at slice {i}: state {from:?} start {start} stride {stride} n {n} samples {samples:?}");
            println!("source {a:?}\nrattle {b:?}");
            std::process::exit(1);
        }
        lengths[n] += 1;
    }
    println!("{count} slices compared, 0 differences; by length {:?}", &lengths[1..]);
}
