//! Times item iteration: the source's iterator, the library's item step for each item, and the loop of a caller in a hurry, who has small blocks
//! decoded and takes the items from those. One process, in turn, the thread's processor time, the least of many rounds. The sums must be equal.
#[path = "../oracle/signals.rs"]
#[allow(dead_code)]
mod signals;

use qoaudio::{QoaDecoder, QoaDesc, QoaItem};
use std::hint::black_box;

extern "C" {
    fn qoa_decoder_size() -> i64;
    fn qoa_decoder_open(bytes: *const u8, length: usize, state: *mut u8, size: usize) -> i64;
    fn qoa_decoder_into(bytes: *const u8, length: usize, state: *mut u8, size: usize, out: *mut i16, room: usize) -> i64;
    fn qoa_decoder_next_frame(bytes: *const u8, length: usize, state: *mut u8, size: usize) -> i64;
    fn qoa_decoder_next_item(bytes: *const u8, length: usize, state: *mut u8, size: usize) -> i64;
    fn clock_gettime(clock: i32, time: *mut [i64; 2]) -> i32;
}

/// The thread's processor time in nanoseconds.
fn now() -> i64 {
    const CLOCK_THREAD_CPUTIME_ID: i32 = 3;
    let mut t = [0; 2];
    assert!(unsafe { clock_gettime(CLOCK_THREAD_CPUTIME_ID, &mut t) } == 0);
    t[0] * 1_000_000_000 + t[1]
}

fn source(file: &[u8], items: usize) -> u32 {
    let mut decoder = QoaDecoder::new(file).unwrap();
    let mut sum = 0u32;
    for _ in 0..items {
        if let Some(Ok(QoaItem::Sample(s))) = decoder.next() {
            sum = sum.wrapping_add(s as u16 as u32);
        }
    }
    sum
}

/// A decoder of the library at the start of a file.
fn opened(file: &[u8]) -> Vec<u8> {
    let mut state = vec![0; unsafe { qoa_decoder_size() } as usize];
    assert!(unsafe { qoa_decoder_open(file.as_ptr(), file.len(), state.as_mut_ptr(), state.len()) } == 0);
    state
}

/// So many items by the step.
fn stepped(file: &[u8], items: usize) -> u32 {
    const SAMPLE: i64 = 1 << 61;
    let mut state = opened(file);
    let mut sum = 0u32;
    for _ in 0..items {
        let item = unsafe { qoa_decoder_next_item(file.as_ptr(), file.len(), state.as_mut_ptr(), state.len()) };
        if item >= SAMPLE {
            sum = sum.wrapping_add(item as u16 as u32);
        }
    }
    sum
}

/// The same samples one by one from small blocks; a frame begins where a block is not full.
fn taken(file: &[u8], block: usize) -> u32 {
    let mut state = opened(file);
    let (at, length, to, size) = (file.as_ptr(), file.len(), state.as_mut_ptr(), state.len());
    let mut out = [0i16; 1024];
    let mut sum = 0u32;
    loop {
        let count = unsafe { qoa_decoder_into(at, length, to, size, out.as_mut_ptr(), block) };
        for s in &out[..count as usize] {
            sum = black_box(sum.wrapping_add(*s as u16 as u32));
        }
        if (count as usize) < block && unsafe { qoa_decoder_next_frame(at, length, to, size) } == 0 {
            return sum;
        }
    }
}

/// Samples of a small block.
const BLOCKS: [usize; 2] = [160, 1024];
const SAMPLES: usize = 200_000;

fn main() {
    let rounds: usize = std::env::args().nth(1).map_or(20, |n| n.parse().unwrap());
    println!("| channels | source's iterator | the step | ratio | blocks of 160 | ratio | blocks of 1024 | ratio |\n|---|---|---|---|---|---|---|---|");
    for c in [1, 2, 8] {
        let n = SAMPLES / c;
        let samples = signals::signal("speech", n, c);
        let file = qoaudio::encode_all(&samples, &QoaDesc { channels: c as u8, sample_rate: 44100, samples: n as u32 }).unwrap();
        let items = n * c + n.div_ceil(5120);
        let mut calls: [&mut dyn FnMut() -> u32; 4] = [
            &mut || source(black_box(&file), items),
            &mut || stepped(black_box(&file), items),
            &mut || taken(black_box(&file), BLOCKS[0]),
            &mut || taken(black_box(&file), BLOCKS[1]),
        ];
        let mut least = [i64::MAX; 4];
        let mut sums = [0; 4];
        for _ in 0..rounds {
            for (i, call) in calls.iter_mut().enumerate() {
                let start = now();
                sums[i] = black_box(call());
                least[i] = least[i].min(now() - start);
            }
        }
        assert!(sums.iter().all(|s| *s == sums[0]));
        let ns = least.map(|t| t as f64 / items as f64);
        print!("| {c} | {:.2} |", ns[0]);
        ns[1..].iter().for_each(|t| print!(" {:.2} | {:.2} |", t, t / ns[0]));
        println!();
    }
}
