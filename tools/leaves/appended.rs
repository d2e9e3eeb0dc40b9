
// Appended to the unchanged source by tools/leaves/run.sh: its private functions and tables, for a program outside.
pub mod leaves {
    use super::*;

    pub type State = ([i32; 4], [i32; 4]);

    fn lms((history, weights): State) -> QoaLms {
        QoaLms { history, weights }
    }

    pub fn qoa_div(v: i32, sf: usize) -> i32 {
        super::qoa_div(v, sf)
    }

    pub fn predict(state: State) -> i32 {
        lms(state).predict()
    }

    pub fn predict_and_penalty_sq(state: State) -> (i32, u64) {
        lms(state).predict_and_penalty_sq()
    }

    pub fn update(state: State, sample: i16, residual: i32) -> State {
        let mut lms = lms(state);
        lms.update(sample, residual);
        (lms.history, lms.weights)
    }

    pub fn reciprocal(sf: usize) -> i32 {
        QOA_RECIPROCAL_TAB[sf]
    }

    pub fn dequant(sf: usize, code: usize) -> i32 {
        QOA_DEQUANT_TAB[sf][code]
    }

    /// The code of a quotient, as `encode_slice` has it in its own lines: clamped, 8 added, looked up.
    pub fn code(quotient: i32) -> i32 {
        QOA_QUANT_TAB[(quotient.clamp(-8, 8) + 8) as usize]
    }

    /// A slice of one sample by the source's search: the scale factor, the code, and the predictor after it.
    pub fn one_sample(state: State, sample: i16) -> (usize, usize, State) {
        let mut encoder = QoaEncoder::new(&QoaDesc { channels: 1, sample_rate: 1, samples: 1 }).unwrap();
        encoder.lms[0] = lms(state);
        let (word, sf, after) = encoder.encode_slice(&[sample], 0, 1, 1);
        (sf, (word & 7) as usize, (after.history, after.weights))
    }
}
