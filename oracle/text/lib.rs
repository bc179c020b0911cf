//! What goes in and out of the oracle as text, free of FlowForge's types: the description of a
//! network with document 01's reader and ranges, a network as a line of a script, the lines of a run,
//! and the held state.

pub mod description;
pub mod held;
pub mod lines;
pub mod script;

/// A double as 16 lower-case hexadecimal digits of its bits. Every NaN has one form.
pub fn hex(value: f64) -> String {
    if value.is_nan() {
        "7ff8000000000000".into()
    } else {
        format!("{:016x}", value.to_bits())
    }
}

/// As `hex`, with a sign for an absent value.
pub fn hex_or(absent: &str, value: Option<f64>) -> String {
    value.map_or(absent.into(), hex)
}

/// A double from 16 lower-case hexadecimal digits.
pub fn double(text: &str) -> Option<f64> {
    whole_hex(text).map(f64::from_bits)
}

/// A whole number from 16 lower-case hexadecimal digits.
pub fn whole_hex(text: &str) -> Option<u64> {
    let digit = |b: u8| matches!(b, b'0'..=b'9' | b'a'..=b'f');
    (text.len() == 16 && text.bytes().all(digit)).then(|| u64::from_str_radix(text, 16).unwrap())
}
