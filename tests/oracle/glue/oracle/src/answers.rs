// Errors of the Rust as numbers of document 01, and bytes and lists as text.
use std::io::ErrorKind;
use unplug::audio::Error;
use unplug::audio::format::adpcm::FrameContext;

/// The number that document 01 gives to this error, or the error's name where it gives none or two:
/// InconsistentSampleRate is 15 between channels and 22 between blocks.
pub fn refusal(e: &Error) -> String {
    let number = match e {
        Error::Io(e) if e.kind() == ErrorKind::UnexpectedEof => 1,
        Error::Io(e) if e.kind() == ErrorKind::QuotaExceeded => 5,
        Error::InvalidHpsMagic => 2,
        Error::InvalidChannelCount(_) => 3,
        Error::UnrecognizedSampleFormat(_) => 4,
        Error::InvalidSampleRate(_) => 9,
        Error::DifferentChannelSizes => 12,
        Error::BlockTooLarge(..) => 13,
        Error::DifferentCoefficients => 23,
        Error::EmptyStream => 27,
        _ => return format!("{e:?}").replace(' ', ""),
    };
    number.to_string()
}

/// Bytes as hexadecimal digits, `-` for none.
pub fn hex(bytes: &[u8]) -> String {
    if bytes.is_empty() {
        return "-".into();
    }
    bytes.iter().map(|b| format!("{b:02x}")).collect()
}

/// The bytes that these digits stand for.
pub fn bytes(digits: &str) -> Vec<u8> {
    if digits == "-" {
        return vec![];
    }
    let pair = |i| u8::from_str_radix(&digits[2 * i..2 * i + 2], 16).expect("hexadecimal digits");
    (0..digits.len() / 2).map(pair).collect()
}

/// Values with commas between them.
pub fn list<T: ToString>(values: impl IntoIterator<Item = T>) -> String {
    values.into_iter().map(|v| v.to_string()).collect::<Vec<_>>().join(",")
}

/// Predictor and scale, and the two last samples.
pub fn context(c: &FrameContext) -> String {
    format!("{},{},{}", c.predictor_and_scale, c.last_samples[0], c.last_samples[1])
}
