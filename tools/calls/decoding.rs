//! The source's answers to calls in a row on one decoder, and its state after each as a block.
use crate::block::{Decoder, LIMIT};
use crate::listed::{self, header};
use crate::port::{Op, Said};
use qoaudio::{look, DecodeError, FrameHeader, ProcessingMode, QoaDecoder, QoaItem};
use std::cell::Cell;
use std::io::Read;
use std::rc::Rc;

/// A reader of bytes in memory that shows its place.
struct Placed<'a> {
    left: &'a [u8],
    at: Rc<Cell<usize>>,
}

impl Read for Placed<'_> {
    fn read(&mut self, buf: &mut [u8]) -> std::io::Result<usize> {
        let n = self.left.read(buf)?;
        self.at.set(self.at.get() + n);
        Ok(n)
    }
}

fn number(e: &DecodeError) -> i64 {
    match e {
        DecodeError::NotQoaFile => 1,
        DecodeError::NoSamples => 2,
        DecodeError::InvalidFrameHeader => 3,
        DecodeError::IncompatibleFrame => 4,
        DecodeError::IoError(e) => {
            assert!(e.kind() == std::io::ErrorKind::UnexpectedEof);
            5
        }
    }
}

type Answer<T> = Result<T, i64>;

const HEADER: i64 = 1 << 60;
const SAMPLE: i64 = 1 << 61;

fn coded(h: &FrameHeader) -> i64 {
    ((h.num_channels as i64) << 48) | ((h.sample_rate as i64) << 16) | h.num_samples_per_channel as i64
}

/// A decoder of the source, and where the next frame's header is.
pub struct Source<'a> {
    bytes: &'a [u8],
    decoder: QoaDecoder<Placed<'a>>,
    at: Rc<Cell<usize>>,
    after: usize,
    /// The predictors of a frame with more channels than the file's, once those were fitted to the file's.
    wider: Vec<[i32; 8]>,
}

impl<'a> Source<'a> {
    /// A decoder at the start of the bytes. More than 8 channels are 6 (difference 1).
    pub fn open(bytes: &'a [u8]) -> Answer<Self> {
        if listed::opening(bytes) {
            return Err(6);
        }
        let at = Rc::new(Cell::new(0));
        let decoder = QoaDecoder::new(Placed { left: bytes, at: at.clone() }).map_err(|e| number(&e))?;
        let fixed = *decoder.mode() != ProcessingMode::Streaming;
        let after = if fixed { 8 + header(&bytes[8..]).length() } else { 8 };
        Ok(Source { bytes, decoder, at, after, wider: Vec::new() })
    }

    /// A decoder in a good state.
    pub fn put(bytes: &'a [u8], s: &Decoder) -> Self {
        let (place, c) = (s.place as usize, s.channels as usize);
        let at = Rc::new(Cell::new(place));
        let mode = match s.mode {
            0 => ProcessingMode::Streaming,
            _ => ProcessingMode::FixedSamples { channels: s.first_channels, sample_rate: s.first_rate, samples: s.total },
        };
        // in fixed mode the source has a predictor for each of the file's channels, whatever the frame has
        let predictors = if s.mode == 0 { c } else { c.max(s.first_channels as usize) };
        let state = look::Look {
            remaining: s.remaining,
            next: s.next as usize,
            end: s.end as usize,
            pending: s.pending[..20 * c].to_vec(),
            given: s.given == 1,
            states: s.predictors[..predictors].to_vec(),
        };
        let header = FrameHeader { num_channels: s.channels, sample_rate: s.rate, num_samples_per_channel: s.samples };
        let reader = Placed { left: &bytes[place..], at: at.clone() };
        let after = place + 8 * c * (s.remaining as usize).div_ceil(20);
        Source { bytes, decoder: look::put_decoder(reader, mode, header, &state), at, after, wider: Vec::new() }
    }

    /// Whether the next frame's header, where it is read, is a good one of more than 8 channels: differences 1 and 2.
    fn many(&self) -> bool {
        let left = self.bytes.get(self.after..).unwrap_or(&[]);
        left.len() >= 8 && header(left).good() && header(left).c > 8
    }

    /// In fixed mode the source asserts that a frame has as many predictors as the file has channels. A state that is handed in may have more.
    fn fit(&mut self) {
        if let ProcessingMode::FixedSamples { channels, .. } = *self.decoder.mode() {
            let l = look::decoder(&self.decoder);
            if l.states.len() > channels as usize {
                self.wider = l.states;
                look::fit(&mut self.decoder, channels as usize);
            }
        }
    }

    fn entered(&mut self) -> i64 {
        self.after += header(&self.bytes[self.after..]).length();
        self.wider.clear();
        coded(self.decoder.current_frame_header())
    }

    fn next_frame(&mut self) -> Answer<Said> {
        let c = self.decoder.current_frame_header().num_channels as usize;
        let mut rest = [0; 1024];
        while c > 0 && self.decoder.decode_into(&mut rest[..1024 - 1024 % c]).map_err(|e| number(&e))? > 0 {}
        self.fit();
        match self.decoder.next_frame() {
            Ok(None) => Ok(Said::Number(0)),
            Ok(Some(_)) | Err(DecodeError::IncompatibleFrame) | Err(DecodeError::IoError(_)) if self.many() => Err(6),
            Ok(Some(_)) => Ok(Said::Number(self.entered())),
            Err(e) => Err(number(&e)),
        }
    }

    fn item(&mut self) -> Answer<Said> {
        let l = look::decoder(&self.decoder);
        if l.given && l.remaining == 0 && l.next >= l.end {
            self.fit();
        }
        match self.decoder.next() {
            None => Ok(Said::Number(0)),
            Some(Ok(QoaItem::Sample(s))) => Ok(Said::Number(SAMPLE | s as u16 as i64)),
            Some(Ok(QoaItem::FrameHeader(h))) if !l.given => Ok(Said::Number(HEADER | coded(&h))),
            Some(Ok(_)) | Some(Err(DecodeError::IncompatibleFrame)) | Some(Err(DecodeError::IoError(_))) if self.many() => Err(6),
            Some(Ok(_)) => Ok(Said::Number(HEADER | self.entered())),
            Some(Err(e)) => Err(number(&e)),
        }
    }

    /// Total, channels, rate, and the length.
    fn facts(&self) -> ([u32; 3], f64) {
        let h = self.decoder.current_frame_header();
        match *self.decoder.mode() {
            ProcessingMode::Streaming => ([0, h.num_channels as u32, h.sample_rate], 0.0),
            ProcessingMode::FixedSamples { channels, sample_rate, samples } => {
                ([samples, channels as u32, sample_rate], samples as f64 / sample_rate as f64)
            }
        }
    }

    /// The state with 0 in all that means nothing. Bytes that are no header stay unread (difference 13).
    pub fn state(&self) -> Decoder {
        let h = self.decoder.current_frame_header();
        let l = look::decoder(&self.decoder);
        let (mode, total, first_channels, first_rate) = match *self.decoder.mode() {
            ProcessingMode::Streaming => (0, 0, 0, 0),
            ProcessingMode::FixedSamples { channels, sample_rate, samples } => (1, samples, channels, sample_rate),
        };
        let (next, end) = if l.next < l.end { (l.next, l.end) } else { (0, 0) };
        let c = h.num_channels as usize;
        let from = if l.states.len() < c { &self.wider } else { &l.states };
        let mut predictors = [[0; 8]; LIMIT];
        predictors[..c].copy_from_slice(&from[..c]);
        let mut pending = vec![0; 20 * LIMIT];
        pending[next..end].copy_from_slice(&l.pending);
        Decoder {
            mode,
            total,
            first_channels,
            first_rate,
            place: self.at.get().min(self.after) as u64,
            channels: h.num_channels,
            rate: h.sample_rate,
            samples: h.num_samples_per_channel,
            remaining: l.remaining,
            next: next as u16,
            end: end as u16,
            given: l.given as u8,
            predictors,
            pending,
        }
    }

    pub fn call(&mut self, op: Op) -> Answer<Said> {
        match op {
            Op::Into(room) => {
                let mut buf = vec![0; room];
                let n = self.decoder.decode_into(&mut buf).map_err(|e| number(&e))?;
                Ok(Said::Samples(buf[..n].to_vec()))
            }
            Op::Frame => self.next_frame(),
            Op::Item => self.item(),
            Op::Facts(room) if room < 3 => Err(7),
            Op::Facts(_) => Ok(Said::Facts(self.facts().0)),
            Op::Seconds => Ok(Said::Seconds(self.facts().1.to_bits())),
        }
    }
}
