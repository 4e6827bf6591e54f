//! Books that are not the game's: one byte other, cut or lengthened.

use crate::random::Random;

pub fn damaged(random: &mut Random, book: &[u8]) -> Vec<u8> {
    let mut bytes = book.to_vec();
    match random.weighted(&[12, 2, 2, 1]) {
        0 => {
            let at = random.below(bytes.len());
            bytes[at] = if random.once_in(2) { bytes[at] ^ 1 << random.below(8) } else { random.byte() };
        }
        1 => bytes.truncate(random.below(bytes.len() + 1)),
        2 => {
            let more = random.pick(&[1, 7, 8, 24, 5000]);
            bytes.extend((0..more).map(|_| if random.once_in(3) { random.byte() } else { 0 }));
        }
        _ => {
            let at = 8 + 24 * random.below(bytes.len() / 24);
            bytes[at + 1..at + 4].copy_from_slice(&[1, 0, 0]);
        }
    }
    bytes
}
