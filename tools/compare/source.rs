//! The source's answers, its errors as the refusals' numbers.
use qoaudio::{DecodeError, ProcessingMode, QoaDecoder};

fn number(e: DecodeError) -> i64 {
    match e {
        DecodeError::NotQoaFile => 1,
        DecodeError::NoSamples => 2,
        DecodeError::InvalidFrameHeader => 3,
        DecodeError::IncompatibleFrame => 4,
        DecodeError::IoError(e) => {
            assert!(e.kind() == std::io::ErrorKind::UnexpectedEof);
            5
        }
    }
}

pub struct Audio {
    pub channels: i64,
    pub rate: i64,
    pub samples: Vec<i16>,
}

pub fn decode_all(bytes: &[u8]) -> Result<Audio, i64> {
    let a = qoaudio::decode_all(bytes).map_err(number)?;
    Ok(Audio { channels: a.num_channels as i64, rate: a.sample_rate as i64, samples: a.samples })
}

pub fn decode_frames(bytes: &[u8]) -> Result<Vec<i16>, i64> {
    let mut decoder = QoaDecoder::new_streaming().map_err(number)?;
    decoder.decode_frame(bytes).map_err(number)
}

/// Total, channels, rate after opening; all zero for a stream.
pub fn facts(bytes: &[u8]) -> Result<[i64; 3], i64> {
    Ok(match *QoaDecoder::new(bytes).map_err(number)?.mode() {
        ProcessingMode::Streaming => [0, 0, 0],
        ProcessingMode::FixedSamples { channels, sample_rate, samples } => {
            [samples as i64, channels as i64, sample_rate as i64]
        }
    })
}
