// Single calls of the source by hand: bytes and samples in hex, one answer to a line. Every lent buffer is filled
// with 5a bytes first, and the reader's place is shown after each call, so that what a call moves or writes is seen.
use crate::vectors::{hex, hex_samples, item_text};
use crate::{decode_error, encode_error};
use qoaudio::{decode_all, encode_all, ProcessingMode, QoaDecoder, QoaDesc, QoaEncoder, QoaItem};
use std::cell::Cell;
use std::io::Read;
use std::rc::Rc;

const FILL: i16 = 0x5a5a;

fn hex_bytes(digits: &str) -> Option<Vec<u8>> {
    (0..digits.len()).step_by(2).map(|i| u8::from_str_radix(digits.get(i..i + 2)?, 16).ok()).collect()
}

/// Hex, `-` for none; `HEX*N` is N times the same, and `+` puts parts together.
fn bytes(text: &str) -> Vec<u8> {
    let part = |part: &str| {
        let (digits, times) = part.split_once('*').unwrap_or((part, "1"));
        Some(hex_bytes(digits)?.repeat(times.parse().ok()?))
    };
    let all: Option<Vec<Vec<u8>>> = text.split('+').filter(|p| *p != "-").map(part).collect();
    all.unwrap_or_else(|| crate::fail(format!("not hex: {text}"))).concat()
}

fn samples(text: &str) -> Vec<i16> {
    bytes(text).chunks_exact(2).map(|b| i16::from_le_bytes([b[0], b[1]])).collect()
}

/// A reader of bytes in memory that shows its place.
struct Placed<'a> {
    left: &'a [u8],
    at: Rc<Cell<usize>>,
}

impl Read for Placed<'_> {
    fn read(&mut self, buf: &mut [u8]) -> std::io::Result<usize> {
        let n = self.left.read(buf)?;
        self.at.set(self.at.get() + n);
        Ok(n)
    }
}

pub fn whole(file: &str) {
    println!("{}", match decode_all(&bytes(file)[..]) {
        Ok(all) => format!("ok {} {} {}", all.num_channels, all.sample_rate, hex_samples(&all.samples)),
        Err(e) => decode_error(&e),
    });
}

fn decode_into<R: Read>(decoder: &mut QoaDecoder<R>, room: usize) -> String {
    let mut buf = vec![FILL; room];
    let (text, count) = match decoder.decode_into(&mut buf) {
        Ok(n) => (format!("ok {}", hex_samples(&buf[..n])), n),
        Err(e) => (decode_error(&e), 0),
    };
    let past = &buf[count..];
    if past.iter().all(|&s| s == FILL) { text } else { format!("{text} past-the-count {}", hex_samples(past)) }
}

fn facts<R: Read>(decoder: &QoaDecoder<R>) -> String {
    let header = decoder.current_frame_header();
    let length = decoder.total_duration();
    match *decoder.mode() {
        ProcessingMode::Streaming => format!("streaming {} {} {length:?}", header.num_channels, header.sample_rate),
        ProcessingMode::FixedSamples { channels, sample_rate, samples } => {
            format!("fixed {samples} {channels} {sample_rate} {length:?}")
        }
    }
}

pub fn calls(file: &str, ops: &[&str]) {
    let file = bytes(file);
    let at = Rc::new(Cell::new(0));
    let mut decoder = match QoaDecoder::new(Placed { left: &file, at: at.clone() }) {
        Ok(decoder) => decoder,
        Err(e) => return println!("open: {} @{}", decode_error(&e), at.get()),
    };
    println!("open: ok @{}", at.get());
    for op in ops {
        let text = match (op.strip_prefix('i'), *op) {
            (Some(room), _) => decode_into(&mut decoder, crate::number(room)),
            (_, "f") => match decoder.next_frame() {
                Ok(header) => item_text(header.map(|h| Ok(QoaItem::FrameHeader(h)))),
                Err(e) => decode_error(&e),
            },
            (_, "n") => item_text(decoder.next()),
            (_, "s") => facts(&decoder),
            _ => crate::fail(format!("not a call: {op}")),
        };
        println!("{op}: {text} @{}", at.get());
    }
}

/// The streaming-frames call, part after part, on one decoder.
pub fn frames(parts: &[&str]) {
    let mut decoder = QoaDecoder::new_streaming().expect("a streaming decoder");
    for part in parts {
        println!("{}", match decoder.decode_frame(&bytes(part)) {
            Ok(all) => format!("ok {}", hex_samples(&all)),
            Err(e) => decode_error(&e),
        });
    }
}

pub fn oneshot(channels: u8, sample_rate: u32, total: u32, data: &str) {
    println!("{}", match encode_all(&samples(data), &QoaDesc { channels, sample_rate, samples: total }) {
        Ok(file) => format!("ok {}", hex(&file)),
        Err(e) => encode_error(&e),
    });
}

/// A new encoder, then a frame for each part: its answer, and the bytes that it wrote.
pub fn pieces(channels: u8, sample_rate: u32, total: u32, parts: &[&str]) {
    let mut encoder = match QoaEncoder::new(&QoaDesc { channels, sample_rate, samples: total }) {
        Ok(encoder) => encoder,
        Err(e) => return println!("{}", encode_error(&e)),
    };
    for part in parts {
        let mut out = Vec::new();
        println!("{}", match encoder.encode_frame(&samples(part), &mut out) {
            Ok(n) => format!("ok {n} {}", hex(&out)),
            Err(e) => encode_error(&e),
        });
    }
}
