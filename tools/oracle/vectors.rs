// A deterministic list of small inputs with the oracle's answers, one to a line.
//
//   decode NAME FILE = ok CHANNELS RATE SAMPLES | ERROR          whole-file decoding
//   items NAME FILE = ITEM..                                      iteration: H:c:rate:n  S:sample  ERROR  end
//   calls NAME FILE SCRIPT = ANSWER..                             d:LEN decode_into, n next_frame, i one item
//   frames NAME BYTES = ok SAMPLES | ERROR                        the streaming-frames call
//   encode NAME CHANNELS RATE TOTAL SAMPLES = ok FILE | ERROR     one-shot encoding
//   pieces NAME CHANNELS RATE TOTAL SAMPLES/SAMPLES.. = ANSWER..  header, then a frame for each part
//
// Bytes are hex, `-` where there are none. Samples are hex too, two bytes each, lower byte first.
use crate::signals::{signal, Random, KINDS};
use crate::{decode_error, encode_error};
use qoaudio::{decode_all, encode_all, QoaDecoder, QoaDesc, QoaEncoder, QoaItem};

pub fn hex(bytes: &[u8]) -> String {
    if bytes.is_empty() {
        return "-".into();
    }
    bytes.iter().map(|b| format!("{b:02x}")).collect()
}

pub fn hex_samples(samples: &[i16]) -> String {
    hex(&samples.iter().flat_map(|s| s.to_le_bytes()).collect::<Vec<u8>>())
}

fn decode(name: &str, file: &[u8]) {
    let answer = match decode_all(file) {
        Ok(all) => format!("ok {} {} {}", all.num_channels, all.sample_rate, hex_samples(&all.samples)),
        Err(e) => decode_error(&e),
    };
    println!("decode {name} {} = {answer}", hex(file));
}

pub fn item_text(item: Option<Result<QoaItem, qoaudio::DecodeError>>) -> String {
    match item {
        None => "end".into(),
        Some(Err(e)) => decode_error(&e),
        Some(Ok(QoaItem::Sample(s))) => format!("S:{s}"),
        Some(Ok(QoaItem::FrameHeader(h))) => {
            format!("H:{}:{}:{}", h.num_channels, h.sample_rate, h.num_samples_per_channel)
        }
    }
}

fn items(name: &str, file: &[u8]) {
    print!("items {name} {} =", hex(file));
    match QoaDecoder::new(file) {
        Err(e) => print!(" {}", decode_error(&e)),
        Ok(mut decoder) => loop {
            let text = item_text(decoder.next());
            print!(" {text}");
            if !text.contains(':') {
                break;
            }
        },
    }
    println!();
}

fn calls(name: &str, file: &[u8], script: &str) {
    print!("calls {name} {} {script} =", hex(file));
    match QoaDecoder::new(file) {
        Err(e) => print!(" {}", decode_error(&e)),
        Ok(mut decoder) => {
            for word in script.split(',') {
                let text = match word.split_once(':') {
                    Some((_, len)) => {
                        let mut buf = vec![0i16; len.parse().unwrap()];
                        match decoder.decode_into(&mut buf) {
                            Ok(n) => format!("{n}:{}", hex_samples(&buf[..n])),
                            Err(e) => decode_error(&e),
                        }
                    }
                    None if word == "n" => match decoder.next_frame() {
                        Ok(Some(h)) => item_text(Some(Ok(QoaItem::FrameHeader(h)))),
                        Ok(None) => "end".into(),
                        Err(e) => decode_error(&e),
                    },
                    None => item_text(decoder.next()),
                };
                print!(" {text}");
                if text.contains("Error") || text.contains("Invalid") || text.contains("Incompatible") {
                    break;
                }
            }
        }
    }
    println!();
}

fn frames(name: &str, bytes: &[u8]) {
    let answer = match QoaDecoder::new_streaming().unwrap().decode_frame(bytes) {
        Ok(samples) => format!("ok {}", hex_samples(&samples)),
        Err(e) => decode_error(&e),
    };
    println!("frames {name} {} = {answer}", hex(bytes));
}

fn encode(name: &str, channels: u8, sample_rate: u32, samples: u32, data: &[i16]) {
    let answer = match encode_all(data, &QoaDesc { channels, sample_rate, samples }) {
        Ok(file) => format!("ok {}", hex(&file)),
        Err(e) => encode_error(&e),
    };
    println!("encode {name} {channels} {sample_rate} {samples} {} = {answer}", hex_samples(data));
}

fn pieces(name: &str, channels: u8, sample_rate: u32, samples: u32, parts: &[Vec<i16>]) {
    let mut encoder = QoaEncoder::new(&QoaDesc { channels, sample_rate, samples }).unwrap();
    let text: Vec<String> = parts.iter().map(|p| hex_samples(p)).collect();
    print!("pieces {name} {channels} {sample_rate} {samples} {} =", text.join("/"));
    let mut header = Vec::new();
    encoder.write_header(&mut header).unwrap();
    print!(" {}", hex(&header));
    for part in parts {
        let mut out = Vec::new();
        match encoder.encode_frame(part, &mut out) {
            Ok(n) => print!(" {n}:{}", hex(&out)),
            Err(e) => print!(" {}", encode_error(&e)),
        }
    }
    println!();
}

/// A frame: header fields as given, predictor state, then slice words.
fn frame(c: u8, rate: u32, n: u16, size: u16, state: &[i16], slices: &[u64]) -> Vec<u8> {
    let head = (c as u64) << 56 | (rate as u64) << 32 | (n as u64) << 16 | size as u64;
    let mut out = head.to_be_bytes().to_vec();
    out.extend(state.iter().flat_map(|s| s.to_be_bytes()));
    out.extend(slices.iter().flat_map(|s| s.to_be_bytes()));
    out
}

fn file(total: u32, frames: &[Vec<u8>]) -> Vec<u8> {
    let mut out = b"qoaf".to_vec();
    out.extend(total.to_be_bytes());
    frames.iter().for_each(|f| out.extend(f));
    out
}

const NEW: [i16; 8] = [0, 0, 0, 0, 0, 0, -8192, 16384];

fn states(c: usize) -> Vec<i16> {
    NEW.repeat(c)
}

fn random_frame(random: &mut Random, c: u8, rate: u32, n: u16) -> Vec<u8> {
    let slices = (n as usize).div_ceil(20) * c as usize;
    let state: Vec<i16> = (0..8 * c as usize).map(|_| random.sample()).collect();
    let words: Vec<u64> = (0..slices).map(|_| (random.next() as u64) << 32 | random.next() as u64).collect();
    frame(c, rate, n, (8 + 16 * c as usize + 8 * slices) as u16, &state, &words)
}

fn file_headers() {
    let one = frame(1, 44100, 1, 32, &NEW, &[0]);
    for len in 0..8 {
        decode(&format!("header-cut-{len}"), &b"qoaf\0\0\0\x01"[..len]);
        decode(&format!("magic-wrong-{len}"), &b"qoag\0\0\0\x01"[..len]);
    }
    for total in [0u32, 1, 2, 7] {
        decode(&format!("no-frame-{total}"), &file(total, &[]));
        decode(&format!("one-sample-total-{total}"), &file(total, &[one.clone()]));
        for tail in 1..8 {
            decode(&format!("tail-{total}-{tail}"), &file(total, &[one.clone(), vec![0xff; tail]]));
            decode(&format!("short-frame-{total}-{tail}"), &file(total, &[one[..tail].to_vec()]));
        }
    }
}

fn frame_headers() {
    let one = frame(1, 44100, 1, 32, &NEW, &[0]);
    let cases: &[(&str, u8, u32, u16, u16)] = &[
        ("channels-0", 0, 44100, 1, 32),
        ("rate-0", 1, 0, 1, 32),
        ("rate-max", 1, 0xffffff, 1, 32),
        ("size-8", 1, 44100, 1, 8),
        ("size-24", 1, 44100, 1, 24),
        ("size-25", 1, 44100, 1, 25),
        ("size-31", 1, 44100, 1, 31),
        ("size-2079", 1, 44100, 1, 2079),
        ("size-2080", 1, 44100, 1, 2080),
        ("size-65535", 1, 44100, 1, 65535),
        ("two-size-40", 2, 44100, 1, 40),
        ("two-size-41", 2, 44100, 1, 41),
        ("two-size-48", 2, 44100, 1, 48),
        ("two-size-55", 2, 44100, 1, 55),
        ("two-size-56", 2, 44100, 1, 56),
        ("two-size-4151", 2, 44100, 1, 4151),
        ("two-size-4152", 2, 44100, 1, 4152),
        ("eight", 8, 44100, 1, 200),
        ("nine", 9, 44100, 1, 224),
        ("n-0", 1, 44100, 0, 32),
    ];
    for total in [0u32, 1] {
        for &(name, c, rate, n, size) in cases {
            let words = vec![0x7123_4567_89ab_cdef; c as usize];
            let made = frame(c, rate, n, size, &states(c as usize), &words);
            decode(&format!("{name}-first-{total}"), &file(total, &[made.clone()]));
            decode(&format!("{name}-second-{total}"), &file(total, &[one.clone(), made]));
        }
        let other_rate = frame(1, 44101, 1, 32, &NEW, &[0]);
        let two = frame(2, 44100, 1, 56, &states(2), &[0, 0]);
        for (name, second) in [("rate", other_rate), ("channels", two)] {
            for cut in [8, 15, 23, 24, 31, second.len()] {
                let cut = cut.min(second.len());
                decode(&format!("other-{name}-{total}-{cut}"), &file(total, &[one.clone(), second[..cut].to_vec()]));
            }
        }
    }
}

fn damaged() {
    let mut random = Random(5);
    for (c, n) in [(1u8, 1u16), (1, 20), (1, 21), (1, 40), (2, 19), (2, 41), (3, 25), (8, 21)] {
        let whole = file(n as u32, &[random_frame(&mut random, c, 48000, n)]);
        decode(&format!("whole-{c}-{n}"), &whole);
        let mut cut = 9;
        while cut < whole.len() {
            decode(&format!("cut-{c}-{n}-{cut}"), &whole[..cut]);
            cut += 1 + whole.len() / 9;
        }
        for k in 0..8 {
            let mut bad = whole.clone();
            let at = random.next() as usize % bad.len();
            bad[at] ^= 1 << (random.next() % 8);
            decode(&format!("bit-{c}-{n}-{k}"), &bad);
        }
    }
    let many: Vec<Vec<u8>> = [30u16, 0, 20, 5].iter().map(|&n| random_frame(&mut random, 2, 8000, n)).collect();
    decode("short-frames-inside", &file(55, &many));
    decode("short-frames-streaming", &file(0, &many));
}

fn slices() {
    for sf in 0..16u64 {
        let codes = 0x0fac_6881_f58d_1000 & 0x0fff_ffff_ffff_ffff;
        decode(&format!("slice-{sf}"), &file(20, &[frame(1, 44100, 20, 32, &NEW, &[sf << 60 | codes])]));
    }
    for (name, state) in [
        ("low", [-32768i16; 8]),
        ("high", [32767; 8]),
        ("mixed", [-32768, 32767, -32768, 32767, 32767, -32768, -32768, 32767]),
    ] {
        for word in [0u64, u64::MAX, 0xfe00_0000_0000_0000, 0xf924_9249_2492_4924, 0x8123_4567_89ab_cdef] {
            decode(&format!("state-{name}-{word:x}"), &file(20, &[frame(1, 44100, 20, 32, &state, &[word])]));
        }
    }
}

fn iteration() {
    let mut random = Random(9);
    let a = random_frame(&mut random, 2, 8000, 21);
    let b = random_frame(&mut random, 1, 8000, 3);
    let c = random_frame(&mut random, 1, 16000, 40);
    let none = random_frame(&mut random, 1, 8000, 0);
    for (name, whole) in [
        ("fixed", file(3, &[b.clone()])),
        ("fixed-two", file(6, &[b.clone(), b.clone()])),
        ("fixed-other", file(6, &[b.clone(), c.clone()])),
        ("streaming", file(0, &[b.clone(), a.clone(), c.clone()])),
        ("streaming-none", file(0, &[])),
        ("empty-frame", file(0, &[none.clone(), b.clone(), none.clone()])),
        ("tail", file(3, &[b.clone(), vec![1, 2, 3]])),
        ("cut-slice", file(3, &[b[..b.len() - 1].to_vec()])),
        ("cut-second", file(0, &[b.clone(), a[..a.len() - 9].to_vec()])),
        ("cut-state", file(0, &[b.clone(), a[..20].to_vec()])),
    ] {
        items(name, &whole);
        for script in ["i,i,i,d:5,d:0,n,i,i,n", "d:1,i,d:100,d:1,n,d:7,i,n,n,n", "n,d:39,d:41,n,i", "n,n,n,n,d:3"] {
            calls(name, &whole, script);
        }
    }
    frames("none", &[]);
    for (name, bytes) in [("one", b.clone()), ("change", [b.clone(), a.clone(), c].concat())] {
        frames(name, &bytes);
        for tail in [1, 7, 8] {
            frames(&format!("{name}-tail-{tail}"), &[bytes.clone(), vec![0; tail]].concat());
            frames(&format!("{name}-cut-{tail}"), &bytes[..bytes.len() - tail]);
        }
    }
}

fn encoding() {
    for c in [0u8, 1, 8, 9, 255] {
        for (rate, total) in [(0u32, 0u32), (0, 1), (44100, 0), (44100, 1), (16777215, 1), (16777216, 1)] {
            encode("creation", c, rate, total, &vec![0; c as usize]);
        }
    }
    encode("length", 1, 44100, 2, &[0]);
    encode("length", 2, 44100, 1, &[0, 0, 0]);
    for s in [0i16, 1, -1, 2, 100, -100, 32766, 32767, -32767, -32768] {
        encode("one", 1, 44100, 1, &[s]);
        encode("twenty", 1, 44100, 20, &[s; 20]);
    }
    for kind in KINDS {
        for (c, n) in [(1usize, 19), (1, 20), (1, 21), (2, 30), (3, 45), (8, 22)] {
            encode(kind, c as u8, 48000, n as u32, &signal(kind, n, c));
        }
    }
    let mut random = Random(3);
    let loud: Vec<i16> = (0..60).map(|_| if random.next() & 1 == 0 { 32767 } else { -32768 }).collect();
    encode("loud", 1, 8000, 60, &loud);
    let part = |k: usize, c: usize| signal("noise", 100, c)[k * 20 * c..(k * 20 + 13 * (k + 1)) * c].to_vec();
    pieces("mono", 1, 8000, 9, &[part(0, 1), part(1, 1), part(2, 1), vec![]]);
    pieces("stereo", 2, 8000, 9, &[part(0, 2), vec![1, 2, 3], part(1, 2), part(2, 2)]);
    pieces("loud", 1, 8000, 9, &[loud[..20].to_vec(), loud[20..].to_vec(), vec![-32768; 25]]);
    pieces("too-long", 1, 8000, 9, &[vec![0; 5121], vec![5; 3]]);
}

pub fn print() {
    file_headers();
    frame_headers();
    damaged();
    slices();
    iteration();
    encoding();
}
