//! The listed differences (docs/DIFFERENCES.md), each by a rule on the input: where a header asks for more than 8 channels, and
//! what is left over after streaming frames. Written apart from both sides.

pub struct Header {
    pub c: usize,
    pub rate: usize,
    pub n: usize,
    pub size: usize,
}

pub fn header(b: &[u8]) -> Header {
    let at = |i: usize| b[i] as usize;
    Header {
        c: at(0),
        rate: at(1) << 16 | at(2) << 8 | at(3),
        n: at(4) << 8 | at(5),
        size: at(6) << 8 | at(7),
    }
}

impl Header {
    pub fn length(&self) -> usize {
        8 + 16 * self.c + 8 * self.c * self.n.div_ceil(20)
    }

    /// The source's own checks.
    pub fn good(&self) -> bool {
        let state = 8 + 16 * self.c;
        if self.c == 0 || self.rate == 0 || self.size <= state {
            return false;
        }
        let k = (self.size - state) / 8;
        k % self.c == 0 && k / self.c <= 256
    }
}

/// Where a walk over frames ends: at a header with more than 8 channels, with so many bytes left over, or at another refusal.
#[derive(PartialEq)]
pub enum End {
    Many,
    Left(usize),
    Other,
}

/// Frames of any kind, one after another.
pub fn frames(mut b: &[u8]) -> End {
    while b.len() >= 8 {
        let h = header(b);
        if !h.good() {
            return End::Other;
        }
        if h.c > 8 {
            return End::Many;
        }
        if b.len() < h.length() {
            return End::Other;
        }
        b = &b[h.length()..];
    }
    End::Left(b.len())
}

/// The frames of a file, all like the first one.
pub fn file(b: &[u8]) -> End {
    if b.len() < 16 || &b[..4] != b"qoaf" {
        return End::Other;
    }
    let first = header(&b[8..]);
    let mut rest = &b[8..];
    while rest.len() >= 8 {
        let h = header(rest);
        if !h.good() {
            return End::Other;
        }
        if h.c > 8 {
            return End::Many;
        }
        if h.c != first.c || h.rate != first.rate || rest.len() < h.length() {
            return End::Other;
        }
        rest = &rest[h.length()..];
    }
    End::Left(rest.len())
}

/// Whether opening meets more than 8 channels: in fixed mode, by the first frame's header.
pub fn opening(b: &[u8]) -> bool {
    if b.len() < 16 || &b[..4] != b"qoaf" || b[4..8] == [0; 4] {
        return false;
    }
    let h = header(&b[8..]);
    h.good() && h.c > 8
}
