//! States as blocks of bytes, and the state rules: written again from docs/FORMAT.md, apart from the library's code.

/// The channel limit, and the lengths of the two blocks.
pub const LIMIT: usize = 8;
pub const DECODER: usize = 32 + 72 * LIMIT;
pub const ENCODER: usize = 9 + 32 * LIMIT;

pub type Predictor = [i32; 8];

/// A decoder's block field by field. Mode and flag are bytes that may be any.
#[derive(Clone, Debug, PartialEq)]
pub struct Decoder {
    pub mode: u8,
    pub total: u32,
    pub first_channels: u8,
    pub first_rate: u32,
    pub place: u64,
    pub channels: u8,
    pub rate: u32,
    pub samples: u16,
    pub remaining: u16,
    pub next: u16,
    pub end: u16,
    pub given: u8,
    pub predictors: [Predictor; LIMIT],
    pub pending: Vec<i16>,
}

/// An encoder's block field by field.
#[derive(Clone, Debug, PartialEq)]
pub struct Encoder {
    pub channels: u8,
    pub rate: u32,
    pub total: u32,
    pub predictors: [Predictor; LIMIT],
}

/// Takes big-endian numbers from the front.
struct Fields<'a>(&'a [u8]);

impl Fields<'_> {
    fn take(&mut self, bytes: usize) -> u64 {
        let (front, rest) = self.0.split_at(bytes);
        self.0 = rest;
        front.iter().fold(0, |n, b| n << 8 | *b as u64)
    }

    fn predictors(&mut self) -> [Predictor; LIMIT] {
        [(); LIMIT].map(|_| [(); 8].map(|_| self.take(4) as u32 as i32))
    }
}

fn put_predictors(b: &mut Vec<u8>, predictors: &[Predictor; LIMIT]) {
    predictors.iter().flatten().for_each(|n| b.extend_from_slice(&n.to_be_bytes()));
}

fn used(predictors: &[Predictor; LIMIT], channels: u8) -> &[Predictor] {
    &predictors[..(channels as usize).min(LIMIT)]
}

fn histories_fit(predictors: &[Predictor]) -> bool {
    predictors.iter().flat_map(|p| &p[..4]).all(|h| i16::try_from(*h).is_ok())
}

/// The most that a weight may be in magnitude with so many samples remaining.
pub fn weight_bound(remaining: u16) -> i64 {
    32768 + 17920 * (3277 - (remaining as i64 + 19) / 20)
}

impl Decoder {
    pub fn read(block: &[u8]) -> Decoder {
        assert!(block.len() == DECODER);
        let mut f = Fields(block);
        Decoder {
            mode: f.take(1) as u8,
            total: f.take(4) as u32,
            first_channels: f.take(1) as u8,
            first_rate: f.take(4) as u32,
            place: f.take(8),
            channels: f.take(1) as u8,
            rate: f.take(4) as u32,
            samples: f.take(2) as u16,
            remaining: f.take(2) as u16,
            next: f.take(2) as u16,
            end: f.take(2) as u16,
            given: f.take(1) as u8,
            predictors: f.predictors(),
            pending: (0..20 * LIMIT).map(|_| f.take(2) as u16 as i16).collect(),
        }
    }

    /// The block with every field as it is.
    pub fn written(&self) -> Vec<u8> {
        let mut b = vec![self.mode];
        b.extend_from_slice(&self.total.to_be_bytes());
        b.push(self.first_channels);
        b.extend_from_slice(&self.first_rate.to_be_bytes());
        b.extend_from_slice(&self.place.to_be_bytes());
        b.push(self.channels);
        b.extend_from_slice(&self.rate.to_be_bytes());
        for n in [self.samples, self.remaining, self.next, self.end] {
            b.extend_from_slice(&n.to_be_bytes());
        }
        b.push(self.given);
        put_predictors(&mut b, &self.predictors);
        self.pending.iter().for_each(|s| b.extend_from_slice(&s.to_be_bytes()));
        b
    }

    /// The rules of a decoder's state, over so many bytes.
    pub fn good(&self, bytes: usize) -> bool {
        let bound = weight_bound(self.remaining);
        let fixed = self.total >= 1 && (1..=8).contains(&self.first_channels) && (1..=16777215).contains(&self.first_rate);
        self.mode <= 1
            && self.given <= 1
            && self.place <= bytes as u64
            && (self.mode == 0 || fixed)
            && self.channels <= 8
            && (self.remaining == 0 || self.channels >= 1)
            && self.remaining <= self.samples
            && self.next <= self.end
            && self.end as usize <= 20 * self.channels as usize
            && histories_fit(used(&self.predictors, self.channels))
            && used(&self.predictors, self.channels).iter().flat_map(|p| &p[4..]).all(|w| (*w as i64).abs() <= bound)
    }

    /// The same state with 0 in all that means nothing.
    pub fn view(&self) -> Decoder {
        let mut v = self.clone();
        if v.mode == 0 {
            (v.total, v.first_channels, v.first_rate) = (0, 0, 0);
        }
        v.predictors[v.channels as usize..].fill([0; 8]);
        v.pending[..v.next as usize].fill(0);
        v.pending[v.end as usize..].fill(0);
        v
    }
}

impl Encoder {
    pub fn read(block: &[u8]) -> Encoder {
        assert!(block.len() == ENCODER);
        let mut f = Fields(block);
        Encoder { channels: f.take(1) as u8, rate: f.take(4) as u32, total: f.take(4) as u32, predictors: f.predictors() }
    }

    pub fn written(&self) -> Vec<u8> {
        let mut b = vec![self.channels];
        b.extend_from_slice(&self.rate.to_be_bytes());
        b.extend_from_slice(&self.total.to_be_bytes());
        put_predictors(&mut b, &self.predictors);
        b
    }

    /// The rules of an encoder's state.
    pub fn good(&self) -> bool {
        (1..=8).contains(&self.channels)
            && (1..=16777215).contains(&self.rate)
            && self.total >= 1
            && histories_fit(used(&self.predictors, self.channels))
    }

    pub fn view(&self) -> Encoder {
        let mut v = self.clone();
        v.predictors[v.channels as usize..].fill([0; 8]);
        v
    }
}
