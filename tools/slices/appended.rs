
// Appended to the unchanged source by tools/slices/run.sh: its private search, for a program outside.
pub mod slices {
    use super::*;

    pub type State = ([i32; 4], [i32; 4]);

    /// The slice of `n` samples from `start` on, a stride apart, as the frame encoder writes it: the word shifted left
    /// 3 bits for each missing sample, the scale factor, and the predictor after it.
    pub fn encode(state: State, samples: &[i16], start: usize, stride: usize, n: usize) -> (u64, usize, State) {
        let mut encoder = QoaEncoder::new(&QoaDesc { channels: 1, sample_rate: 1, samples: 1 }).unwrap();
        for lms in encoder.lms.iter_mut() {
            *lms = QoaLms { history: state.0, weights: state.1 };
        }
        let (word, sf, after) = encoder.encode_slice(samples, start, start + n * stride, stride);
        (word << (3 * (20 - n)), sf, (after.history, after.weights))
    }
}
