
// Appended to the unchanged source by tools/calls/run.sh: a look into its private states, and a way to put it into one, for a program outside.
pub mod look {
    use super::*;

    /// Histories and weights of each channel.
    pub type States = Vec<[i32; 8]>;

    fn numbers(lms: &QoaLms) -> [i32; 8] {
        let (h, w) = (lms.history, lms.weights);
        [h[0], h[1], h[2], h[3], w[0], w[1], w[2], w[3]]
    }

    fn predictor(n: &[i32; 8]) -> QoaLms {
        QoaLms { history: [n[0], n[1], n[2], n[3]], weights: [n[4], n[5], n[6], n[7]] }
    }

    pub struct Look {
        pub remaining: u16,
        pub next: usize,
        pub end: usize,
        /// From next to end.
        pub pending: Vec<i16>,
        pub given: bool,
        pub states: States,
    }

    pub fn decoder<R>(d: &QoaDecoder<R>) -> Look {
        let (next, end) = (d.next_pending_sample_idx, d.pending_samples_end);
        Look {
            remaining: d.current_frame.num_samples_per_channel_remaining,
            next,
            end,
            pending: if next < end { d.pending_samples[next..end].to_vec() } else { Vec::new() },
            given: d.returned_first_frame_header,
            states: d.lms.iter().map(numbers).collect(),
        }
    }

    /// A decoder in the state looked at, but that all of its pending entries are handed in, at the place where the reader stands.
    pub fn put_decoder<R>(reader: R, mode: ProcessingMode, header: FrameHeader, state: &Look) -> QoaDecoder<R> {
        QoaDecoder {
            mode,
            lms: state.states.iter().map(predictor).collect(),
            reader,
            current_frame: CurrentFrame { header, num_samples_per_channel_remaining: state.remaining },
            pending_samples: state.pending.clone().into_boxed_slice(),
            pending_samples_end: state.end,
            next_pending_sample_idx: state.next,
            returned_first_frame_header: state.given,
        }
    }

    /// So many predictors, as the source has them in fixed mode.
    pub fn fit<R>(d: &mut QoaDecoder<R>, channels: usize) {
        d.lms.resize_with(channels, Default::default);
    }

    pub fn encoder(e: &QoaEncoder) -> States {
        e.lms.iter().take(e.channels as usize).map(numbers).collect()
    }

    pub fn put_encoder(desc: &QoaDesc, states: &[[i32; 8]]) -> QoaEncoder {
        let mut lms = [QoaLms::default(); QOA_MAX_CHANNELS];
        lms.iter_mut().zip(states).for_each(|(to, from)| *to = predictor(from));
        let QoaDesc { channels, sample_rate, samples } = *desc;
        QoaEncoder { channels, sample_rate, samples, lms, prev_scalefactor: [0; QOA_MAX_CHANNELS] }
    }
}
