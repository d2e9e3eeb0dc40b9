//! The port's C interface, on slices.

mod c {
    extern "C" {
        pub fn qoa_decode_all(bytes: *const u8, length: usize, out: *mut i16, room: usize) -> i64;
        pub fn qoa_decode_need(bytes: *const u8, length: usize) -> i64;
        pub fn qoa_channels(bytes: *const u8, length: usize) -> i64;
        pub fn qoa_rate(bytes: *const u8, length: usize) -> i64;
        pub fn qoa_decode_frames(bytes: *const u8, length: usize, out: *mut i16, room: usize) -> i64;
        pub fn qoa_part_length(bytes: *const u8, length: usize, at: usize) -> i64;
        pub fn qoa_facts_total(bytes: *const u8, length: usize) -> i64;
        pub fn qoa_facts_channels(bytes: *const u8, length: usize) -> i64;
        pub fn qoa_facts_rate(bytes: *const u8, length: usize) -> i64;
        pub fn qoa_facts_seconds(bytes: *const u8, length: usize) -> f64;
    }
}

pub fn decode_all(b: &[u8], out: &mut [i16]) -> i64 {
    unsafe { c::qoa_decode_all(b.as_ptr(), b.len(), out.as_mut_ptr(), out.len()) }
}

pub fn decode_frames(b: &[u8], out: &mut [i16]) -> i64 {
    unsafe { c::qoa_decode_frames(b.as_ptr(), b.len(), out.as_mut_ptr(), out.len()) }
}

/// Samples in all, channels, rate.
pub fn need(b: &[u8]) -> [i64; 3] {
    let (p, n) = (b.as_ptr(), b.len());
    unsafe { [c::qoa_decode_need(p, n), c::qoa_channels(p, n), c::qoa_rate(p, n)] }
}

pub fn part_length(b: &[u8], at: usize) -> i64 {
    unsafe { c::qoa_part_length(b.as_ptr(), b.len(), at) }
}

/// Total, channels, rate, and the bits of the length in seconds.
pub fn facts(b: &[u8]) -> ([i64; 3], u64) {
    let (p, n) = (b.as_ptr(), b.len());
    unsafe {
        (
            [c::qoa_facts_total(p, n), c::qoa_facts_channels(p, n), c::qoa_facts_rate(p, n)],
            c::qoa_facts_seconds(p, n).to_bits(),
        )
    }
}
