//! Changes of bytes and of the header.

use crate::random::Random;
use crate::store::form::{header, region, set_header, LENGTH, MOST};

/// Changes a few bytes; what was done.
pub fn spoil_bytes(random: &mut Random, bytes: &mut [u8]) -> &'static str {
    let index = random.below(4);
    let count = header(bytes, index + 1) as usize;
    let region = region(bytes, index);
    let used = region.start + (3 * count).min(region.len());
    match random.below(7) {
        0 => {
            let at = random.below(18);
            bytes[at] ^= 1 << random.below(8);
            "a byte of the header"
        }
        1 => {
            let most = MOST[index] as u32;
            let room = region.len() as u32 / 3;
            let count = count as u32;
            let values = [
                0,
                count + 1,
                count.wrapping_sub(1),
                most,
                most + 1,
                room,
                room + 1,
                0xff_ffff,
            ];
            set_header(bytes, index + 1, *random.pick(&values));
            "a count"
        }
        2 => {
            let values = [0, 1, 258, 65_538];
            set_header(bytes, 0, *random.pick(&values));
            "the number of the form"
        }
        3 if used < region.end => {
            let far = random.below(region.end - used);
            let near = random.below(3.min(region.end - used));
            let last = region.end - 1 - used;
            let at = used + *random.pick(&[far, near, last]);
            bytes[at] = random.between(1, 255) as u8;
            "an unused byte"
        }
        4 | 5 if used > region.start => {
            for _ in 0..random.between(1, 2) {
                let at = random.between(region.start, used - 1);
                match random.below(3) {
                    0 => bytes[at] ^= 1 << random.below(8),
                    1 => bytes[at] = bytes[at].wrapping_add(1),
                    _ => bytes[at] = random.below(256) as u8,
                }
            }
            "used bytes"
        }
        _ => {
            let at = random.below(LENGTH);
            bytes[at] ^= 1 << random.below(8);
            "any byte"
        }
    }
}
