//! Numbers in groups of seven bits, the most significant first, the top bit set on all bytes but
//! the last: document 02, request (ii).

/// Set on a byte that isn't a number's last.
pub const MORE: u8 = 0x80;

/// The one encoding of a number, without a leading zero group; 0 is one group. Scripts encode
/// numbers of more than 64 bits too.
pub fn encoded(number: u128) -> Vec<u8> {
    let mut bytes = vec![(number % 128) as u8];
    let mut rest = number / 128;
    while rest > 0 {
        bytes.insert(0, MORE | (rest % 128) as u8);
        rest /= 128;
    }
    bytes
}

/// A number as it stands at the start of some bytes, whole or cut off.
pub struct Number {
    /// The largest that there is stands for all above it, so that none wraps.
    pub value: u64,
    /// How many bytes it takes.
    pub length: usize,
    /// Whether its last byte is there.
    pub whole: bool,
    /// Whether its first group is zero, with another to follow.
    pub zero_led: bool,
}

impl Number {
    pub fn read(bytes: &[u8]) -> Number {
        let end = bytes.iter().position(|byte| byte & MORE == 0);
        let length = end.map_or(bytes.len(), |end| end + 1);
        let next = |value: u64, byte: &u8| {
            let group = u64::from(byte & !MORE);
            value.saturating_mul(128).saturating_add(group)
        };
        Number {
            value: bytes[..length].iter().fold(0, next),
            length,
            whole: end.is_some(),
            zero_led: bytes.first() == Some(&MORE),
        }
    }
}
