//! Character classes, digit fields and big-endian numbers.

pub const BLANK: u8 = b' ';
pub const LINE_FEED: u8 = b'\n';

pub fn is_digit(byte: u8) -> bool {
    byte.is_ascii_digit()
}

/// "Capitals" are A to Z only.
pub fn is_capital(byte: u8) -> bool {
    byte.is_ascii_uppercase()
}

/// Actors and card codes are digits or capitals.
pub fn is_digit_or_capital(byte: u8) -> bool {
    is_digit(byte) || is_capital(byte)
}

pub fn all_digits(bytes: &[u8]) -> bool {
    bytes.iter().all(|&byte| is_digit(byte))
}

pub fn all_capitals(bytes: &[u8]) -> bool {
    bytes.iter().all(|&byte| is_capital(byte))
}

pub fn all_digits_or_capitals(bytes: &[u8]) -> bool {
    bytes.iter().all(|&byte| is_digit_or_capital(byte))
}

pub fn all_blanks(bytes: &[u8]) -> bool {
    bytes.iter().all(|&byte| byte == BLANK)
}

pub fn all_zeros(bytes: &[u8]) -> bool {
    bytes.iter().all(|&byte| byte == b'0')
}

/// One or more bytes of a class, then nothing but blanks.
pub fn filled_then_blanks(bytes: &[u8], class: fn(u8) -> bool) -> bool {
    let filled = bytes.iter().take_while(|&&byte| class(byte)).count();
    filled > 0 && all_blanks(&bytes[filled..])
}

/// The value of a field of up to fifteen digits, or nothing where a byte is no digit.
pub fn digits_value(field: &[u8]) -> Option<u64> {
    field.iter().try_fold(0u64, |value, &byte| {
        is_digit(byte).then(|| value * 10 + u64::from(byte - b'0'))
    })
}

/// A number right-adjusted in a field of the given width, padded with zeros.
pub fn padded(value: u64, width: usize) -> Vec<u8> {
    let text = format!("{value:0width$}");
    assert!(text.len() == width, "{value} is wider than {width} digits");
    text.into_bytes()
}

/// The value of big-endian bytes.
pub fn big_endian(bytes: &[u8]) -> u64 {
    bytes
        .iter()
        .fold(0, |value, &byte| value * 256 + u64::from(byte))
}
