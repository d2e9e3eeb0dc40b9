//! Times the port beside the source: one process, in turn, the thread's processor time, the least of many rounds. The port
//! writes into lent memory that was written before, the source into a vector of its own, as each is used. `C into` is decode_into
//! through the C interface, with its state as a block of bytes, beside the port's own loop with its state by value.
#[path = "../oracle/signals.rs"]
#[allow(dead_code)]
mod signals;

use qoaudio::{QoaDecoder, QoaDesc};
use std::hint::black_box;

extern "C" {
    fn qoa_decode_all(bytes: *const u8, length: usize, out: *mut i16, room: usize) -> i64;
    fn qoa_encode_all(
        channels: u8,
        rate: u32,
        total: u32,
        samples: *const i16,
        count: usize,
        out: *mut u8,
        room: usize,
    ) -> i64;
    fn blocks_decode(bytes: *const u8, length: usize, out: *mut i16, room: usize, block: usize) -> usize;
    fn qoa_decoder_size() -> i64;
    fn qoa_decoder_open(bytes: *const u8, length: usize, state: *mut u8, size: usize) -> i64;
    fn qoa_decoder_into(bytes: *const u8, length: usize, state: *mut u8, size: usize, out: *mut i16, room: usize) -> i64;
    fn qoa_decoder_next_frame(bytes: *const u8, length: usize, state: *mut u8, size: usize) -> i64;
    fn clock_gettime(clock: i32, time: *mut [i64; 2]) -> i32;
}

#[cfg(reference)]
extern "C" {
    fn reference_decode(bytes: *const u8, length: usize, out: *mut i16) -> i64;
    fn reference_encode(channels: u32, samples: u32, from: *const i16) -> i64;
}

/// The thread's processor time in nanoseconds.
fn now() -> i64 {
    const CLOCK_THREAD_CPUTIME_ID: i32 = 3;
    let mut t = [0; 2];
    assert!(unsafe { clock_gettime(CLOCK_THREAD_CPUTIME_ID, &mut t) } == 0);
    t[0] * 1_000_000_000 + t[1]
}

fn timed(call: &mut dyn FnMut()) -> i64 {
    let start = now();
    call();
    now() - start
}

/// The least time of each, called in turn.
fn least(rounds: usize, calls: &mut [&mut dyn FnMut()]) -> Vec<i64> {
    let mut best = vec![i64::MAX; calls.len()];
    for _ in 0..rounds {
        for (i, call) in calls.iter_mut().enumerate() {
            best[i] = best[i].min(timed(call));
        }
    }
    best
}

/// A whole file through the source's decode_into, in blocks, as blocks.rt.txt has it for the port.
fn source_blocks(file: &[u8], out: &mut [i16], block: usize) -> usize {
    let mut decoder = QoaDecoder::new(file).unwrap();
    let mut done = 0;
    while done < out.len() {
        let room = block.min(out.len() - done);
        let count = decoder.decode_into(&mut out[done..done + room]).unwrap();
        done += count;
        if count < room {
            decoder.next_frame().unwrap();
        }
    }
    done
}

fn port_blocks(file: &[u8], out: &mut [i16], block: usize) -> usize {
    unsafe { blocks_decode(file.as_ptr(), file.len(), out.as_mut_ptr(), out.len(), block) }
}

/// The same through the C interface, with the state as a block of bytes.
fn c_blocks(file: &[u8], out: &mut [i16], block: usize) -> usize {
    let (at, length) = (file.as_ptr(), file.len());
    unsafe {
        let mut state = vec![0; qoa_decoder_size() as usize];
        let (to, size) = (state.as_mut_ptr(), state.len());
        assert!(qoa_decoder_open(at, length, to, size) == 0);
        let mut done = 0;
        while done < out.len() {
            let room = block.min(out.len() - done);
            let count = qoa_decoder_into(at, length, to, size, out[done..].as_mut_ptr(), room);
            assert!(count >= 0);
            done += count as usize;
            if (count as usize) < room {
                assert!(qoa_decoder_next_frame(at, length, to, size) > 0);
            }
        }
        done
    }
}

/// Samples over all channels of a run.
const SAMPLES: usize = 400_000;

fn main() {
    let rounds = std::env::args().nth(1).map_or(30, |n| n.parse().unwrap());
    println!("| signal | channels | decode_all: source | port | ratio | into 4096: source | port | ratio | into 160: source | port | ratio | encode_all: source | port | ratio | C into 4096: loop | C | ratio | C into 160: loop | C | ratio |{}",
        if cfg!(reference) { " decode_all: reference | ratio | encode_all: reference | ratio |" } else { "" });
    println!("|{}", "---|".repeat(if cfg!(reference) { 24 } else { 20 }));
    for kind in signals::KINDS {
        for c in [1, 2, 8] {
            let n = SAMPLES / c;
            let samples = signals::signal(kind, n, c);
            let desc = QoaDesc { channels: c as u8, sample_rate: 44100, samples: n as u32 };
            let file = qoaudio::encode_all(&samples, &desc).unwrap();
            let mut out = vec![0i16; n * c];
            let mut blocks = [(); 6].map(|_| vec![0i16; n * c]);
            let [source_long, port_long, source_short, port_short, c_long, c_short] = &mut blocks;
            let mut made = vec![0u8; file.len()];
            #[cfg(reference)]
            let mut heard = vec![0i16; n * c];
            let times = least(
                rounds,
                &mut [
                    &mut || drop(black_box(qoaudio::decode_all(black_box(&file[..])).map(|a| a.samples.len()))),
                    &mut || unsafe {
                        let count = qoa_decode_all(black_box(file.as_ptr()), file.len(), out.as_mut_ptr(), out.len());
                        assert!(count == (n * c) as i64);
                    },
                    &mut || assert!(source_blocks(black_box(&file), source_long, 4096) == n * c),
                    &mut || assert!(port_blocks(black_box(&file), port_long, 4096) == n * c),
                    &mut || assert!(source_blocks(black_box(&file), source_short, 160) == n * c),
                    &mut || assert!(port_blocks(black_box(&file), port_short, 160) == n * c),
                    &mut || drop(black_box(qoaudio::encode_all(black_box(&samples), &desc).map(|b| b.len()))),
                    &mut || unsafe {
                        let from = black_box(samples.as_ptr());
                        let (to, room) = (made.as_mut_ptr(), made.len());
                        let count = qoa_encode_all(c as u8, 44100, n as u32, from, n * c, to, room);
                        assert!(count == room as i64);
                    },
                    &mut || assert!(c_blocks(black_box(&file), c_long, 4096) == n * c),
                    &mut || assert!(c_blocks(black_box(&file), c_short, 160) == n * c),
                    #[cfg(reference)]
                    &mut || unsafe {
                        assert!(reference_decode(black_box(file.as_ptr()), file.len(), heard.as_mut_ptr()) == (n * c) as i64);
                    },
                    #[cfg(reference)]
                    &mut || unsafe {
                        assert!(reference_encode(c as u32, n as u32, black_box(samples.as_ptr())) == file.len() as i64);
                    },
                ],
            );
            assert!(made == file);
            #[cfg(reference)]
            assert!(heard == out);
            assert!(blocks.iter().all(|b| *b == out) && out == qoaudio::decode_all(&file[..]).unwrap().samples);
            print!("| {kind} | {c} |");
            let each = |t: i64| t as f64 / (n * c) as f64;
            for pair in times[..8].chunks(2) {
                print!(" {:.2} | {:.2} | {:.2} |", each(pair[0]), each(pair[1]), pair[1] as f64 / pair[0] as f64);
            }
            // the C calls beside the port's own loop
            for (loop_, c) in [(times[3], times[8]), (times[5], times[9])] {
                print!(" {:.2} | {:.2} | {:.2} |", each(loop_), each(c), c as f64 / loop_ as f64);
            }
            for (t, source) in times[10..].iter().zip([times[0], times[6]]) {
                print!(" {:.2} | {:.2} |", each(*t), *t as f64 / source as f64);
            }
            println!();
        }
    }
}
