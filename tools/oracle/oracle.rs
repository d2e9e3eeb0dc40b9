// The Rust source, unchanged, behind a command line.
mod look;
mod signals;
mod vectors;

use qoaudio::{decode_all, encode_all, DecodeError, EncodeError, QoaDesc};
use std::io::{Read, Write};

const USAGE: &str = "usage: oracle decode < FILE.qoa > SAMPLES.raw
       oracle encode CHANNELS RATE < SAMPLES.raw > FILE.qoa
       oracle signal KIND SAMPLES CHANNELS > SAMPLES.raw
       oracle vectors
       oracle whole BYTES
       oracle calls BYTES OP ..
       oracle frames BYTES ..
       oracle oneshot CHANNELS RATE TOTAL SAMPLES
       oracle pieces CHANNELS RATE TOTAL SAMPLES ..
BYTES and SAMPLES (16 bits, lower byte first) are hex, - for none, as 01+00*16. OP: iN f n s (tools/README.md)";

pub fn decode_error(e: &DecodeError) -> String {
    match e {
        DecodeError::NotQoaFile => "NotQoaFile".into(),
        DecodeError::NoSamples => "NoSamples".into(),
        DecodeError::InvalidFrameHeader => "InvalidFrameHeader".into(),
        DecodeError::IncompatibleFrame => "IncompatibleFrame".into(),
        DecodeError::IoError(e) => format!("IoError({:?})", e.kind()),
    }
}

pub fn encode_error(e: &EncodeError) -> String {
    match e {
        EncodeError::InvalidChannels => "InvalidChannels".into(),
        EncodeError::InvalidSampleRate => "InvalidSampleRate".into(),
        EncodeError::InvalidSamples => "InvalidSamples".into(),
        EncodeError::IoError(e) => format!("IoError({:?})", e.kind()),
    }
}

fn output(samples: &[i16]) {
    let bytes: Vec<u8> = samples.iter().flat_map(|s| s.to_le_bytes()).collect();
    std::io::stdout().write_all(&bytes).expect("standard output");
}

fn fail(name: String) -> ! {
    eprintln!("{name}");
    std::process::exit(1);
}

fn decode() {
    match decode_all(std::io::stdin().lock()) {
        Ok(all) => output(&all.samples),
        Err(e) => fail(decode_error(&e)),
    }
}

// The declared total is the input's length.
fn encode(channels: u8, sample_rate: u32) {
    let mut bytes = Vec::new();
    std::io::stdin().read_to_end(&mut bytes).expect("standard input");
    let samples: Vec<i16> = bytes.chunks_exact(2).map(|b| i16::from_le_bytes([b[0], b[1]])).collect();
    let total = samples.len() / (channels as usize).max(1);
    match encode_all(&samples, &QoaDesc { channels, sample_rate, samples: total as u32 }) {
        Ok(file) => std::io::stdout().write_all(&file).expect("standard output"),
        Err(e) => fail(encode_error(&e)),
    }
}

fn number<T: std::str::FromStr>(word: &str) -> T {
    word.parse().unwrap_or_else(|_| fail(format!("not a number that fits here: {word}")))
}

fn main() {
    let words: Vec<String> = std::env::args().skip(1).collect();
    let words: Vec<&str> = words.iter().map(|w| w.as_str()).collect();
    match words[..] {
        ["decode"] => decode(),
        ["encode", c, rate] => encode(number(c), number(rate)),
        ["signal", kind, n, c] if signals::KINDS.contains(&kind) => output(&signals::signal(kind, number(n), number(c))),
        ["vectors"] => vectors::print(),
        ["whole", bytes] => look::whole(bytes),
        ["calls", bytes, ref ops @ ..] => look::calls(bytes, ops),
        ["frames", ref parts @ ..] => look::frames(parts),
        ["oneshot", c, rate, total, samples] => look::oneshot(number(c), number(rate), number(total), samples),
        ["pieces", c, rate, total, ref parts @ ..] => look::pieces(number(c), number(rate), number(total), parts),
        _ => fail(USAGE.into()),
    }
}
