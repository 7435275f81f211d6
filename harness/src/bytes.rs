//! Numbers in little-endian bytes, as every buffer holds them.

/// The pattern that a NaN is written as when a call works it out.
pub const NAN: u32 = 0x7FC0_0000;

pub fn of_words(words: &[u32]) -> Vec<u8> {
    words.iter().flat_map(|word| word.to_le_bytes()).collect()
}

pub fn of_floats(floats: &[f32]) -> Vec<u8> {
    floats.iter().flat_map(|float| float.to_bits().to_le_bytes()).collect()
}

/// The words of a buffer. Bytes left over at its end are passed over.
pub fn words(bytes: &[u8]) -> Vec<u32> {
    bytes.chunks_exact(4).map(|four| u32::from_le_bytes(four.try_into().unwrap())).collect()
}

pub fn floats(bytes: &[u8]) -> Vec<f32> {
    words(bytes).into_iter().map(f32::from_bits).collect()
}

/// The bits of a number that was worked out: a NaN has one pattern.
pub fn worked_out(x: f32) -> u32 {
    if x.is_nan() {
        NAN
    } else {
        x.to_bits()
    }
}

pub fn of_worked_out(floats: &[f32]) -> Vec<u8> {
    floats.iter().flat_map(|float| worked_out(*float).to_le_bytes()).collect()
}
