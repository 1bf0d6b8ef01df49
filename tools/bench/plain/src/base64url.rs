const DIGITS: [u8; 64] = *b"ABCDEFGHIJKLMNOPQRSTUVWXYZabcdefghijklmnopqrstuvwxyz0123456789-_";

/// What the table of values has for bytes that are no digit.
const NONE: u8 = 64;

const VALUES: [u8; 256] = {
    let mut values = [NONE; 256];
    let mut value = 0;
    while value < DIGITS.len() {
        values[DIGITS[value] as usize] = value as u8;
        value += 1;
    }
    values
};

/// The bytes that this text spells in base64url (RFC 4648, section 5) without padding. Bits that are left
/// over must be zero.
pub fn decode(text: &[u8]) -> Option<Vec<u8>> {
    let mut bytes = Vec::with_capacity(text.len() / 4 * 3 + 2);
    for group in text.chunks(4) {
        let mut bits = 0u32;
        for index in 0..4 {
            let value = group
                .get(index)
                .map_or(0, |&digit| VALUES[usize::from(digit)]);
            if value == NONE {
                return None;
            }
            bits = bits << 6 | u32::from(value);
        }
        let spelled = &bits.to_be_bytes()[1..];
        let count = group.len() - 1;
        if count == 0 || spelled[count..].iter().any(|&byte| byte != 0) {
            return None;
        }
        bytes.extend_from_slice(&spelled[..count]);
    }
    Some(bytes)
}
