//! Converts between QOA and raw samples (16 bits, lower byte first, channels interleaved). A recording may be of any length: a block
//! of samples or a frame of them is in memory at a time, and the bytes of a QOA file.
//!     convert decode IN.qoa OUT.raw
//!     convert encode CHANNELS RATE IN.raw OUT.qoa
//! Status 0, or 1 with the reason on standard error. What is written goes to OUT.part, which becomes OUT when all is done. After an
//! error OUT is what it was, and what was converted up to there stays in OUT.part.
use std::fs::{self, File};
use std::io::{BufReader, BufWriter, Read, Write};

/// The library's functions on slices.
mod qoa {
    mod c {
        extern "C" {
            pub fn qoa_decoder_size() -> i64;
            pub fn qoa_decoder_open(bytes: *const u8, length: usize, state: *mut u8, size: usize) -> i64;
            pub fn qoa_decoder_into(bytes: *const u8, length: usize, state: *mut u8, size: usize, out: *mut i16, room: usize) -> i64;
            pub fn qoa_decoder_next_frame(bytes: *const u8, length: usize, state: *mut u8, size: usize) -> i64;
            pub fn qoa_decoder_facts(
                bytes: *const u8,
                length: usize,
                state: *const u8,
                size: usize,
                facts: *mut u32,
                room: usize,
            ) -> i64;
            pub fn qoa_encoder_size() -> i64;
            pub fn qoa_encoder_new(channels: u8, rate: u32, total: u32, state: *mut u8, size: usize) -> i64;
            pub fn qoa_encoder_header(state: *const u8, size: usize, out: *mut u8, room: usize) -> i64;
            pub fn qoa_encoder_frame(
                state: *mut u8,
                size: usize,
                samples: *const i16,
                count: usize,
                out: *mut u8,
                room: usize,
            ) -> i64;
            pub fn qoa_encode_need(channels: u8, total: u32) -> i64;
        }
    }

    /// A count, or the number of a refusal.
    pub type Answer = Result<u64, u8>;

    fn told(answer: i64) -> Answer {
        u64::try_from(answer).map_err(|_| (answer.wrapping_neg() & 0xff) as u8)
    }

    pub struct Decoder<'a> {
        bytes: &'a [u8],
        state: Vec<u8>,
    }

    impl<'a> Decoder<'a> {
        pub fn open(bytes: &'a [u8]) -> Result<Self, u8> {
            let mut state = vec![0; unsafe { c::qoa_decoder_size() } as usize];
            told(unsafe { c::qoa_decoder_open(bytes.as_ptr(), bytes.len(), state.as_mut_ptr(), state.len()) })?;
            Ok(Decoder { bytes, state })
        }

        pub fn decode_into(&mut self, out: &mut [i16]) -> Answer {
            let (b, s) = (self.bytes, &mut self.state);
            told(unsafe { c::qoa_decoder_into(b.as_ptr(), b.len(), s.as_mut_ptr(), s.len(), out.as_mut_ptr(), out.len()) })
        }

        /// Channels and rate of the next frame, or the end.
        pub fn next_frame(&mut self) -> Result<Option<(u32, u32)>, u8> {
            let (b, s) = (self.bytes, &mut self.state);
            let frame = told(unsafe { c::qoa_decoder_next_frame(b.as_ptr(), b.len(), s.as_mut_ptr(), s.len()) })?;
            Ok((frame > 0).then_some(((frame >> 48) as u32, (frame >> 16) as u32)))
        }

        /// Total, channels, rate.
        pub fn facts(&self) -> Result<[u32; 3], u8> {
            let (b, s, mut facts) = (self.bytes, &self.state, [0; 3]);
            told(unsafe { c::qoa_decoder_facts(b.as_ptr(), b.len(), s.as_ptr(), s.len(), facts.as_mut_ptr(), 3) })?;
            Ok(facts)
        }
    }

    pub struct Encoder {
        state: Vec<u8>,
    }

    impl Encoder {
        pub fn new(channels: u8, rate: u32, total: u32) -> Result<Self, u8> {
            let mut state = vec![0; unsafe { c::qoa_encoder_size() } as usize];
            told(unsafe { c::qoa_encoder_new(channels, rate, total, state.as_mut_ptr(), state.len()) })?;
            Ok(Encoder { state })
        }

        pub fn header(&self, out: &mut [u8]) -> Answer {
            let s = &self.state;
            told(unsafe { c::qoa_encoder_header(s.as_ptr(), s.len(), out.as_mut_ptr(), out.len()) })
        }

        pub fn frame(&mut self, samples: &[i16], out: &mut [u8]) -> Answer {
            let (s, from) = (&mut self.state, samples);
            told(unsafe { c::qoa_encoder_frame(s.as_mut_ptr(), s.len(), from.as_ptr(), from.len(), out.as_mut_ptr(), out.len()) })
        }
    }

    /// The samples per channel of a full frame, and bytes enough for any frame or the file header.
    pub const FULL_FRAME: usize = 5120;

    pub fn frame_room(channels: u8) -> Answer {
        told(unsafe { c::qoa_encode_need(channels, FULL_FRAME as u32) })
    }

    /// As in tromvask.h.
    pub fn refusal_words(number: u8) -> &'static str {
        match number {
            1 => "not a QOA file",
            2 => "no frame in the file",
            3 => "a bad frame header",
            4 => "a frame whose channels or rate differ from the first one's",
            5 => "cut short",
            6 => "too many channels",
            7 => "the output is too small",
            8 => "a bad state",
            9 => "the file is too long",
            11 => "no channels, or too many",
            12 => "a rate of zero, or too high",
            13 => "no samples, too many, or not the same number for each channel",
            14 => "a weight of the predictor left its range, so this signal can't be stored",
            _ => "an unknown refusal",
        }
    }
}

type Done<T> = Result<T, String>;

fn refused(path: &str) -> impl Fn(u8) -> String + '_ {
    move |number| format!("{path}: {}", qoa::refusal_words(number))
}

fn failed(path: &str) -> impl Fn(std::io::Error) -> String + '_ {
    move |e| format!("{path}: {e}")
}

/// PATH.part, which becomes PATH when all is done.
struct Output {
    part: String,
    file: BufWriter<File>,
}

impl Output {
    fn begin(path: &str) -> Done<Self> {
        if fs::metadata(path).is_ok_and(|there| !there.is_file()) {
            return Err(format!("{path}: is there, and is no regular file"));
        }
        let part = format!("{path}.part");
        let file = BufWriter::new(File::create(&part).map_err(failed(&part))?);
        Ok(Output { part, file })
    }

    fn put(&mut self, bytes: &[u8]) -> Done<()> {
        self.file.write_all(bytes).map_err(failed(&self.part))
    }

    /// The output takes its name, or after an error keeps the other where anything is in it.
    fn finish<T>(mut self, path: &str, done: Done<T>) -> Done<T> {
        let flushed = self.file.flush().map_err(failed(&self.part));
        let why = match done.and_then(|d| flushed.map(|_| d)) {
            Ok(done) => return fs::rename(&self.part, path).map_err(failed(path)).map(|_| done),
            Err(why) => why,
        };
        let bytes = fs::metadata(&self.part).map_or(0, |m| m.len());
        if bytes == 0 {
            let _ = fs::remove_file(&self.part);
            return Err(why);
        }
        Err(format!("{why}\nconvert: {bytes} bytes up to there are in {}", self.part))
    }
}

/// Decodes all frames: how many samples, and total, channels and rate. A stream's frames may differ in channels or rate; raw samples
/// can't tell, so that is refused as it is for a whole file.
fn decode_frames(from: &str, mut decoder: qoa::Decoder, out: &mut Output) -> Done<(u64, [u32; 3])> {
    let [total, mut channels, mut rate] = decoder.facts().map_err(refused(from))?;
    let mut block = [0; 4096];
    let mut samples = 0;
    loop {
        let got = decoder.decode_into(&mut block).map_err(refused(from))? as usize;
        let raw: Vec<u8> = block[..got].iter().flat_map(|sample| sample.to_le_bytes()).collect();
        out.put(&raw)?;
        samples += got as u64;
        if got < block.len() {
            match decoder.next_frame().map_err(refused(from))? {
                None if channels == 0 => return Err(refused(from)(2)),
                None => return Ok((samples, [total, channels, rate])),
                Some(frame) if channels == 0 => (channels, rate) = frame,
                Some(frame) if frame == (channels, rate) => (),
                Some(_) => return Err(refused(from)(4)),
            }
        }
    }
}

fn decode(from: &str, to: &str) -> Done<()> {
    let bytes = fs::read(from).map_err(failed(from))?;
    let decoder = qoa::Decoder::open(&bytes).map_err(refused(from))?;
    let mut out = Output::begin(to)?;
    let done = decode_frames(from, decoder, &mut out);
    let (samples, [total, channels, rate]) = out.finish(to, done)?;
    println!("{to}: {samples} samples, {channels} channels at {rate} Hz");
    let each = samples / channels as u64;
    if total != 0 && total as u64 != each {
        eprintln!("convert: {from}: its header tells of {total} samples per channel, and {each} are there");
    }
    Ok(())
}

/// The total must be known first: it is the file's length.
fn open_samples(from: &str, channels: u8) -> Done<(BufReader<File>, u32)> {
    let file = File::open(from).map_err(failed(from))?;
    let (length, wide) = (file.metadata().map_err(failed(from))?.len(), 2 * channels as u64);
    if length % wide != 0 {
        return Err(refused(from)(13));
    }
    let total = u32::try_from(length / wide).map_err(|_| format!("{from}: too many samples for one file"))?;
    Ok((BufReader::new(file), total))
}

/// Encodes all frames: how many bytes.
fn encode_frames(from: &str, mut encoder: qoa::Encoder, c: u8, total: u32, file: &mut impl Read, out: &mut Output) -> Done<usize> {
    let mut bytes = vec![0; qoa::frame_room(c).map_err(refused(from))? as usize];
    let mut got = encoder.header(&mut bytes).map_err(refused(from))? as usize;
    let (mut left, mut size) = (total as usize, 0);
    loop {
        out.put(&bytes[..got])?;
        size += got;
        if left == 0 {
            return Ok(size);
        }
        let n = left.min(qoa::FULL_FRAME);
        let mut raw = vec![0; 2 * n * c as usize];
        file.read_exact(&mut raw).map_err(failed(from))?;
        let samples: Vec<i16> = raw.chunks_exact(2).map(|b| i16::from_le_bytes([b[0], b[1]])).collect();
        got = encoder.frame(&samples, &mut bytes).map_err(refused(from))? as usize;
        left -= n;
    }
}

fn encode(channels: &str, rate: &str, from: &str, to: &str) -> Done<()> {
    let c: u8 = channels.parse().ok().filter(|c| *c > 0).ok_or_else(|| refused(channels)(11))?;
    let hz: u32 = rate.parse().map_err(|_| refused(rate)(12))?;
    let (mut file, total) = open_samples(from, c)?;
    let encoder = qoa::Encoder::new(c, hz, total).map_err(refused(from))?;
    let mut out = Output::begin(to)?;
    let done = encode_frames(from, encoder, c, total, &mut file, &mut out);
    let size = out.finish(to, done)?;
    println!("{to}: {size} bytes");
    Ok(())
}

fn main() {
    let args: Vec<String> = std::env::args().skip(1).collect();
    let args: Vec<&str> = args.iter().map(|a| &a[..]).collect();
    let done = match args[..] {
        ["decode", from, to] => decode(from, to),
        ["encode", c, rate, from, to] => encode(c, rate, from, to),
        _ => Err("usage: decode IN.qoa OUT.raw, or encode CHANNELS RATE IN.raw OUT.qoa".to_string()),
    };
    if let Err(why) = done {
        eprintln!("convert: {why}");
        std::process::exit(1);
    }
}
