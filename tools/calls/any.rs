//! Any block of bytes handed in: states that were reached by calls or made up, with a field at or beside its limit, anything where it means
//! nothing, other lengths, and random bytes.
use crate::block::{weight_bound, Decoder, Encoder, Predictor, DECODER, ENCODER, LIMIT};
use crate::inputs::below;
use crate::signals::Random;

fn pick<T: Copy>(r: &mut Random, of: &[T]) -> T {
    of[below(r, of.len())]
}

fn word(r: &mut Random) -> u64 {
    (r.next() as u64) << 32 | r.next() as u64
}

fn any_bytes(r: &mut Random, length: usize) -> Vec<u8> {
    (0..length).map(|_| r.next() as u8).collect()
}

/// A number at an end of its range, at 0, or anywhere within.
fn within(r: &mut Random, least: i64, most: i64) -> i64 {
    let at = [least, most, least + 1, most - 1, 0, 1, -1][below(r, 7)].clamp(least, most);
    if below(r, 2) == 0 { at } else { least + (word(r) % (most - least + 1) as u64) as i64 }
}

fn predictor(r: &mut Random, bound: i64) -> Predictor {
    let kind = below(r, 3);
    let mut p = [0; 8];
    for (i, n) in p.iter_mut().enumerate() {
        *n = match (i < 4, kind) {
            (true, _) => within(r, -32768, 32767),
            (false, 0) => [0, 0, -8192, 16384][i - 4],
            (false, 1) => within(r, -32768, 32767),
            (false, _) => within(r, -bound, bound),
        } as i32;
    }
    p
}

fn any_predictor(r: &mut Random) -> Predictor {
    [(); 8].map(|_| r.next() as i32)
}

/// Anything where the state means nothing.
fn scribble(r: &mut Random, s: &mut Decoder) {
    if s.mode == 0 {
        (s.total, s.first_channels, s.first_rate) = (r.next(), r.next() as u8, r.next());
    }
    for p in &mut s.predictors[(s.channels as usize).min(LIMIT)..] {
        *p = any_predictor(r);
    }
    for (i, sample) in s.pending.iter_mut().enumerate() {
        if i < s.next as usize || i >= s.end as usize {
            *sample = r.next() as i16;
        }
    }
}

/// A good state made up over so many bytes.
fn made(r: &mut Random, bytes: usize) -> Decoder {
    let channels = below(r, LIMIT + 1);
    let samples = pick(r, &[0, 1, 19, 20, 21, 40, 5120, 65535, 60]).min(if below(r, 4) == 0 { 65535 } else { 60 }) as u16;
    let remaining = match below(r, 4) {
        _ if channels == 0 => 0,
        0 => samples,
        1 => 0,
        _ => within(r, 0, samples as i64) as u16,
    };
    let end = if below(r, 3) == 0 { 0 } else { within(r, 0, 20 * channels as i64) };
    let bound = weight_bound(remaining);
    let mut s = Decoder {
        mode: below(r, 2) as u8,
        total: within(r, 1, u32::MAX as i64) as u32,
        first_channels: if below(r, 2) == 0 { channels.max(1) as u8 } else { 1 + below(r, LIMIT) as u8 },
        first_rate: within(r, 1, 0xff_ffff) as u32,
        place: within(r, 0, bytes as i64) as u64,
        channels: channels as u8,
        rate: pick(r, &[0, 1, 44100, 0xff_ffff, 0x100_0000, u32::MAX]),
        samples,
        remaining,
        next: within(r, 0, end) as u16,
        end: end as u16,
        given: below(r, 2) as u8,
        predictors: [[0; 8]; LIMIT].map(|_| predictor(r, bound)),
        pending: (0..20 * LIMIT).map(|_| r.next() as i16).collect(),
    };
    // often at a frame of the bytes, so that something follows
    if below(r, 2) == 0 {
        s.place = pick(r, &[8, 16, 32, 40, 64]).min(bytes) as u64;
    }
    s
}

/// One field at or beside its limit.
fn changed(r: &mut Random, s: &mut Decoder, bytes: usize) {
    let beside = |n: i64, r: &mut Random| n + below(r, 3) as i64 - 1;
    let channel = below(r, LIMIT);
    match below(r, 14) {
        0 => s.mode = pick(r, &[0, 1, 2, 3, 128, 255]),
        1 => s.given = pick(r, &[0, 1, 2, 3, 128, 255]),
        2 => s.total = pick(r, &[0, 1, u32::MAX]),
        3 => s.first_channels = pick(r, &[0, 1, 8, 9, 16, 255]),
        4 => s.first_rate = pick(r, &[0, 1, 0xff_ffff, 0x100_0000, u32::MAX]),
        5 => s.place = pick(r, &[bytes as u64, bytes as u64 + 1, 0, 1 << 32, 1 << 63, u64::MAX]),
        6 => s.channels = pick(r, &[0, 1, 7, 8, 9, 16, 255]),
        7 => s.remaining = pick(r, &[0, s.samples, s.samples.wrapping_add(1), u16::MAX]),
        8 => s.samples = pick(r, &[0, s.remaining, s.remaining.wrapping_sub(1), u16::MAX]),
        9 => s.next = pick(r, &[0, s.end, s.end.wrapping_add(1), u16::MAX]),
        10 => s.end = pick(r, &[0, s.next, 20 * (s.channels as u16 % 200), 20 * (s.channels as u16 % 200) + 1, 160, 161, u16::MAX]),
        11 => s.predictors[channel][below(r, 4)] = pick(r, &[-32769, -32768, 32767, 32768, i32::MIN, i32::MAX, 65536]),
        12 => {
            let bound = weight_bound(s.remaining);
            let at = beside(if below(r, 2) == 0 { bound } else { -bound }, r) as i32;
            s.predictors[channel][4 + below(r, 4)] = pick(r, &[at, at, at, i32::MIN, i32::MAX]);
        }
        _ => s.pending[below(r, 20 * LIMIT)] = pick(r, &[i16::MIN, i16::MAX, 0]),
    }
}

/// Another length than a block's: the rest is cut off, or anything is put behind it.
fn of_length(r: &mut Random, mut block: Vec<u8>, other: &[usize]) -> Vec<u8> {
    let n = block.len();
    let length = match below(r, 3) {
        0 => pick(r, other),
        1 => pick(r, &[0, 1, n - 1, n + 1, 2 * n]),
        _ => below(r, 2 * n),
    };
    if length > n {
        block.extend(any_bytes(r, length - n));
    }
    block.truncate(length);
    block
}

/// A block for a decoder over so many bytes; `reached` is one that calls led to.
pub fn decoder_block(r: &mut Random, reached: Option<&[u8]>, bytes: usize) -> Vec<u8> {
    let mut s = match reached {
        Some(block) if below(r, 2) == 0 => Decoder::read(block),
        _ => made(r, bytes),
    };
    if below(r, 2) == 0 {
        scribble(r, &mut s);
    }
    match below(r, 16) {
        0 => return any_bytes(r, DECODER),
        1 => return of_length(r, s.written(), &[ENCODER, 32 + 72 * 16, 32]),
        2 => {
            let mut block = s.written();
            let at = below(r, 64);
            block[at] ^= 1 << below(r, 8);
            return block;
        }
        3..=6 => (),
        7 => (0..2).for_each(|_| changed(r, &mut s, bytes)),
        _ => changed(r, &mut s, bytes),
    }
    s.written()
}

/// A block for an encoder.
pub fn encoder_block(r: &mut Random) -> Vec<u8> {
    let wild = below(r, 4) == 0;
    let mut s = Encoder {
        channels: 1 + below(r, LIMIT) as u8,
        rate: within(r, 1, 0xff_ffff) as u32,
        total: if below(r, 2) == 0 { 1 + below(r, 60) as u32 } else { within(r, 1, u32::MAX as i64) as u32 },
        predictors: [[0; 8]; LIMIT].map(|_| predictor(r, if wild { i32::MAX as i64 } else { 32767 })),
    };
    if below(r, 2) == 0 {
        s.predictors[s.channels as usize..].fill_with(|| any_predictor(r));
    }
    let channel = below(r, LIMIT);
    match below(r, 16) {
        0 => return any_bytes(r, ENCODER),
        1 => return of_length(r, s.written(), &[DECODER, 9 + 32 * 16, 9]),
        2..=3 => s.channels = pick(r, &[0, 1, 8, 9, 16, 255]),
        4..=5 => s.rate = pick(r, &[0, 1, 0xff_ffff, 0x100_0000, u32::MAX]),
        6 => s.total = pick(r, &[0, 1, u32::MAX]),
        7..=8 => s.predictors[channel][below(r, 4)] = pick(r, &[-32769, -32768, 32767, 32768, i32::MIN, i32::MAX]),
        9..=10 => s.predictors[channel][4 + below(r, 4)] = pick(r, &[-32769, -32768, 32767, 32768, i32::MIN, i32::MAX]),
        _ => (),
    }
    s.written()
}
