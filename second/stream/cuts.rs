//! How the script of streams cuts a byte string into deliveries, and where in the stream the first
//! of them begins.

use crate::scripts::random::Random;
use crate::stream::run::BYTES;
use crate::stream::MOST;

/// The string in deliveries: each byte by itself, all at once, in two, or in pieces of any length;
/// perhaps with empty ones among them.
pub fn pieces(random: &Random, string: &[u8]) -> Vec<Vec<u8>> {
    let half = random.below(string.len() as u32 + 1) as usize;
    let most = random.pick(&[2, 3, 3, 4, 6, 8, 12, BYTES]);
    let any = || 1 + random.below(most as u32) as usize;
    let empty = || random.one_in(3);
    let with_empty = random.one_in(3);
    let kind = random.below(10);
    let mut pieces = Vec::new();
    let mut rest = string;
    while !rest.is_empty() {
        let length = match kind {
            0 | 1 => 1,
            2 | 3 => BYTES,
            4 if pieces.is_empty() && half > 0 => half,
            4 => BYTES,
            _ => any(),
        };
        let (piece, others) = rest.split_at(length.min(BYTES).min(rest.len()));
        if with_empty && empty() {
            pieces.push(Vec::new());
        }
        pieces.push(piece.to_vec());
        rest = others;
    }
    if with_empty && empty() || random.one_in(20) {
        pieces.push(Vec::new());
    }
    pieces
}

/// How many bytes the stream had before: none, or as many as bring the deliveries near 2^16, 2^31
/// or the limit, or any number.
pub fn before(random: &Random, pieces: &[Vec<u8>]) -> u32 {
    let reached = random.below(pieces.len() as u32 + 1) as usize;
    let bytes: u64 = pieces[..reached]
        .iter()
        .map(|piece| piece.len() as u64)
        .sum();
    // With the last of those deliveries the stream reaches the limit, or passes it by a byte or
    // two.
    let limit = MOST + random.pick(&[0, 0, 0, 0, 1, 1, 2]);
    let any = u64::from(random.bits());
    let before = match random.below(16) {
        0..=8 => 0,
        9 => (1 << 16) - bytes,
        10 => (1 << 16) + any % (1 << 20),
        11 => (1 << 31) - bytes,
        12 => any,
        _ => (limit - bytes).min(MOST),
    };
    before as u32
}
