//! Hexadecimal digits by tables.

const WRONG: u8 = 0xFF;

/// The value of each digit of either case; WRONG for every other byte.
const VALUES: [u8; 256] = {
    let mut values = [WRONG; 256];
    let mut value = 0;
    while value < 16 {
        values[DIGITS[value] as usize] = value as u8;
        values[DIGITS[value].to_ascii_lowercase() as usize] = value as u8;
        value += 1;
    }
    values
};

const DIGITS: &[u8; 16] = b"0123456789ABCDEF";

/// The two digits of each byte.
const PAIRS: [[u8; 2]; 256] = {
    let mut pairs = [[0; 2]; 256];
    let mut byte = 0;
    while byte < 256 {
        pairs[byte] = [DIGITS[byte >> 4], DIGITS[byte & 15]];
        byte += 1;
    }
    pairs
};

/// The number that up to 16 digits stand for, or None where one of them is no digit. The digits are judged together
/// after the last one, so that the loop has no branch.
pub fn number<const N: usize>(digits: &[u8; N]) -> Option<u64> {
    let mut number = 0;
    let mut seen = 0;
    for &digit in digits {
        let value = VALUES[usize::from(digit)];
        seen |= value;
        number = number << 4 | u64::from(value);
    }
    (seen < 16).then_some(number)
}

/// Writes the digits of the bytes; `text` has two places for each.
pub fn write(bytes: &[u8], text: &mut [u8]) {
    for (pair, &byte) in text.chunks_exact_mut(2).zip(bytes) {
        pair.copy_from_slice(&PAIRS[usize::from(byte)]);
    }
}
