//! The library's state functions, called through C, with a margin around every list that is lent. A list that is touched where it must not
//! be is a fault, which no answer of the source equals.

mod c {
    extern "C" {
        pub fn qoa_decoder_size() -> i64;
        pub fn qoa_encoder_size() -> i64;
        pub fn qoa_decoder_open(bytes: *const u8, length: usize, state: *mut u8, size: usize) -> i64;
        pub fn qoa_decoder_into(bytes: *const u8, length: usize, state: *mut u8, size: usize, out: *mut i16, room: usize) -> i64;
        pub fn qoa_decoder_next_frame(bytes: *const u8, length: usize, state: *mut u8, size: usize) -> i64;
        pub fn qoa_decoder_next_item(bytes: *const u8, length: usize, state: *mut u8, size: usize) -> i64;
        pub fn qoa_decoder_facts(bytes: *const u8, length: usize, state: *const u8, size: usize, facts: *mut u32, room: usize) -> i64;
        pub fn qoa_decoder_seconds(bytes: *const u8, length: usize, state: *const u8, size: usize) -> f64;
        pub fn qoa_encoder_new(channels: u8, rate: u32, total: u32, state: *mut u8, size: usize) -> i64;
        pub fn qoa_encoder_header(state: *const u8, size: usize, out: *mut u8, room: usize) -> i64;
        pub fn qoa_encoder_frame(state: *mut u8, size: usize, samples: *const i16, count: usize, out: *mut u8, room: usize) -> i64;
        pub fn qoa_encoder_file(state: *mut u8, size: usize, samples: *const i16, count: usize, out: *mut u8, room: usize) -> i64;
    }
}

/// A call on a decoder.
#[derive(Clone, Copy, Debug)]
pub enum Op {
    Into(usize),
    Frame,
    Item,
    Facts(usize),
    Seconds,
}

/// A call on an encoder, with the room for what it writes.
#[derive(Clone, Debug)]
pub enum Writing {
    Header(usize),
    Frame(Vec<i16>, usize),
    File(Vec<i16>, usize),
}

/// An answer. A refusal is all that the answer has above 0; 14 of a whole file has the bytes that were written beside it.
#[derive(Clone, Debug, PartialEq)]
pub enum Said {
    Number(i64),
    Samples(Vec<i16>),
    Facts([u32; 3]),
    Seconds(u64),
    Bytes(Vec<u8>),
    Refused(i64),
    RefusedAfter(i64, Vec<u8>),
    Fault(&'static str),
}

const MARGIN: usize = 8;

/// A list within margins, and what was there before a call.
pub struct Lent<T> {
    memory: Vec<T>,
    before: Vec<T>,
}

impl<T: Copy + PartialEq> Lent<T> {
    pub fn new(list: &[T], pattern: T) -> Self {
        let memory = [&[pattern; MARGIN], list, &[pattern; MARGIN]].concat();
        Lent { before: memory.clone(), memory }
    }

    pub fn room(length: usize, pattern: T) -> Self {
        Lent { memory: vec![pattern; length + 2 * MARGIN], before: vec![pattern; length + 2 * MARGIN] }
    }

    pub fn length(&self) -> usize {
        self.memory.len() - 2 * MARGIN
    }

    pub fn list(&self) -> &[T] {
        &self.memory[MARGIN..MARGIN + self.length()]
    }

    /// NULL where there is nothing.
    fn at(&mut self) -> *mut T {
        if self.length() == 0 { std::ptr::null_mut() } else { self.memory[MARGIN..].as_mut_ptr() }
    }

    fn mark(&mut self) {
        self.before.copy_from_slice(&self.memory);
    }

    /// Whether nothing but the first `count` elements was touched.
    fn kept(&self, count: usize) -> bool {
        let from = MARGIN + count.min(self.length());
        self.memory[..MARGIN] == self.before[..MARGIN] && self.memory[from..] == self.before[from..]
    }
}

fn start<T>(list: &[T]) -> *const T {
    if list.is_empty() { std::ptr::null() } else { list.as_ptr() }
}

pub fn sizes() -> (i64, i64) {
    unsafe { (c::qoa_decoder_size(), c::qoa_encoder_size()) }
}

/// An answer below 0 with the block as it was, or any other with nothing past the state touched.
fn told(answer: i64, block: &Lent<u8>, writes: usize) -> Result<i64, Said> {
    if answer < 0 {
        return Err(if block.kept(0) { Said::Refused(-answer) } else { Said::Fault("a block touched on a refusal") });
    }
    if block.kept(writes) { Ok(answer) } else { Err(Said::Fault("a block touched past the state, or one that is only read")) }
}

fn number(answer: i64, block: &Lent<u8>, writes: usize) -> Said {
    told(answer, block, writes).map_or_else(|e| e, Said::Number)
}

pub fn open(bytes: &[u8], block: &mut Lent<u8>) -> Said {
    block.mark();
    let answer = unsafe { c::qoa_decoder_open(start(bytes), bytes.len(), block.at(), block.length()) };
    number(answer, block, crate::block::DECODER)
}

pub fn call(bytes: &[u8], block: &mut Lent<u8>, op: Op) -> Said {
    block.mark();
    let (b, n, state, size) = (start(bytes), bytes.len(), block.at(), block.length());
    match op {
        Op::Frame => number(unsafe { c::qoa_decoder_next_frame(b, n, state, size) }, block, size),
        Op::Item => number(unsafe { c::qoa_decoder_next_item(b, n, state, size) }, block, size),
        Op::Seconds => {
            let seconds = unsafe { c::qoa_decoder_seconds(b, n, state, size) };
            match told(if seconds < 0.0 { seconds as i64 } else { 0 }, block, 0) {
                Err(Said::Refused(n)) if -seconds != n as f64 => Said::Fault("a refusal that is no whole number"),
                Err(e) => e,
                Ok(_) => Said::Seconds(seconds.to_bits()),
            }
        }
        Op::Facts(room) => {
            let mut facts = Lent::room(room, 0x5a5a5a5a);
            let answer = unsafe { c::qoa_decoder_facts(b, n, state, size, facts.at(), room) };
            match told(answer, block, 0) {
                Err(e) if facts.kept(0) => e,
                Ok(0) if room >= 3 && facts.kept(3) => Said::Facts([0, 1, 2].map(|i| facts.list()[i])),
                _ => Said::Fault("facts"),
            }
        }
        Op::Into(room) => {
            let mut out = Lent::room(room, 0x5a5a);
            let answer = unsafe { c::qoa_decoder_into(b, n, state, size, out.at(), room) };
            match told(answer, block, size) {
                Err(e) if out.kept(0) => e,
                Ok(count) if count as usize <= room && out.kept(count as usize) => Said::Samples(out.list()[..count as usize].to_vec()),
                _ => Said::Fault("samples touched past the count, or on a refusal"),
            }
        }
    }
}

pub fn new_encoder(channels: u8, rate: u32, total: u32, block: &mut Lent<u8>) -> Said {
    block.mark();
    let answer = unsafe { c::qoa_encoder_new(channels, rate, total, block.at(), block.length()) };
    number(answer, block, crate::block::ENCODER)
}

pub fn write(block: &mut Lent<u8>, op: &Writing) -> Said {
    block.mark();
    let (state, size) = (block.at(), block.length());
    let room = match op {
        Writing::Header(room) | Writing::Frame(_, room) | Writing::File(_, room) => *room,
    };
    let mut out = Lent::room(room, 0x5a);
    let to = out.at();
    let (answer, writes) = match op {
        Writing::Header(_) => (unsafe { c::qoa_encoder_header(state, size, to, room) }, 0),
        Writing::Frame(s, _) => (unsafe { c::qoa_encoder_frame(state, size, start(s), s.len(), to, room) }, size),
        Writing::File(s, _) => (unsafe { c::qoa_encoder_file(state, size, start(s), s.len(), to, room) }, size),
    };
    match told(answer, block, writes) {
        Err(Said::Refused(n)) if n & 0xff == 14 && matches!(op, Writing::File(..)) => {
            let count = (n >> 16) as usize;
            if !(count <= room && out.kept(count)) {
                return Said::Fault("bytes touched past those that 14 tells of");
            }
            Said::RefusedAfter(n, out.list()[..count].to_vec())
        }
        Err(e) if out.kept(0) => e,
        Ok(count) if count as usize <= room && out.kept(count as usize) => Said::Bytes(out.list()[..count as usize].to_vec()),
        _ => Said::Fault("bytes touched past the count, or on a refusal"),
    }
}
