//! The source's answers to calls in a row on one encoder, and its state after each as a block.
use crate::block::{Encoder, LIMIT};
use crate::port::{Said, Writing};
use qoaudio::{look, EncodeError, QoaDesc, QoaEncoder};

fn number(e: EncodeError) -> i64 {
    match e {
        EncodeError::InvalidChannels => 11,
        EncodeError::InvalidSampleRate => 12,
        EncodeError::InvalidSamples => 13,
        EncodeError::IoError(e) => panic!("{e}"),
    }
}

pub struct Source {
    desc: QoaDesc,
    encoder: QoaEncoder,
}

/// The bytes of a frame, as docs/FORMAT.md has them.
pub fn frame_bytes(c: usize, n: usize) -> usize {
    8 + 16 * c + 8 * c * n.div_ceil(20)
}

impl Source {
    /// A rate over 24 bits is 12 (difference 6).
    pub fn new(desc: &QoaDesc) -> Result<Self, i64> {
        let encoder = match QoaEncoder::new(desc) {
            Err(EncodeError::InvalidChannels) => Err(11),
            _ if desc.sample_rate > 0xff_ffff => Err(12),
            made => made.map_err(number),
        }?;
        Ok(Source { desc: desc.clone(), encoder })
    }

    pub fn put(s: &Encoder) -> Self {
        let desc = QoaDesc { channels: s.channels, sample_rate: s.rate, samples: s.total };
        Source { encoder: look::put_encoder(&desc, &s.predictors[..s.channels as usize]), desc }
    }

    pub fn state(&self) -> Encoder {
        let mut predictors = [[0; 8]; LIMIT];
        look::encoder(&self.encoder).iter().zip(&mut predictors).for_each(|(from, to)| *to = *from);
        Encoder { channels: self.desc.channels, rate: self.desc.sample_rate, total: self.desc.samples, predictors }
    }

    /// The first channel with a weight outside of 16 bits: difference 7.
    fn wide(&self) -> Option<i64> {
        let states = look::encoder(&self.encoder);
        states.iter().position(|s| s[4..].iter().any(|w| i16::try_from(*w).is_err())).map(|c| c as i64)
    }

    fn frame(&mut self, samples: &[i16], room: usize) -> Result<Vec<u8>, i64> {
        let c = self.desc.channels as usize;
        let n = samples.len() / c;
        // the source's own checks first, on no memory; then 7 (difference 3) and 14
        if samples.is_empty() || samples.len() % c != 0 || n > 5120 {
            return Err(self.encoder.encode_frame(samples, &mut Vec::new()).map_err(number).unwrap_err());
        }
        if room < frame_bytes(c, n) {
            return Err(7);
        }
        if let Some(channel) = self.wide() {
            return Err(14 + 256 * channel);
        }
        let mut bytes = Vec::new();
        self.encoder.encode_frame(samples, &mut bytes).map_err(number)?;
        Ok(bytes)
    }

    /// A whole file: the source's frames one by one, so that 14 is seen; where there is none, its own one-shot call must say the same.
    fn file(&mut self, samples: &[i16], room: usize) -> Said {
        let (c, total) = (self.desc.channels as usize, self.desc.samples as usize);
        if samples.len() as u64 != total as u64 * c as u64 {
            return Said::Refused(self.encoder.encode(samples).map_err(number).unwrap_err());
        }
        let need = 8 + samples.chunks(5120 * c).map(|f| frame_bytes(c, f.len() / c)).sum::<usize>();
        if room < need {
            return Said::Refused(7);
        }
        let before = self.state();
        let mut bytes = self.header();
        for chunk in samples.chunks(5120 * c) {
            if let Some(channel) = self.wide() {
                *self = Source::put(&before);
                return Said::RefusedAfter(14 + 256 * channel + 65536 * bytes.len() as i64, bytes);
            }
            bytes.extend(self.frame(chunk, usize::MAX).unwrap());
        }
        let mut again = Source::put(&before);
        assert!(again.encoder.encode(samples).unwrap() == bytes && again.state() == self.state());
        Said::Bytes(bytes)
    }

    fn header(&self) -> Vec<u8> {
        let mut head = Vec::new();
        self.encoder.write_header(&mut head).unwrap();
        head
    }

    pub fn call(&mut self, op: &Writing) -> Said {
        match op {
            Writing::Header(room) if *room < 8 => Said::Refused(7),
            Writing::Header(_) => Said::Bytes(self.header()),
            Writing::Frame(samples, room) => self.frame(samples, *room).map_or_else(Said::Refused, Said::Bytes),
            Writing::File(samples, room) => self.file(samples, *room),
        }
    }
}
