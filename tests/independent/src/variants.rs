//! A text damaged at every byte: cut off there, one byte more, one less, another byte.

use crate::random::Random;

pub fn at_every_byte(random: &mut Random, text: &[u8]) -> Vec<Vec<u8>> {
    let mut variants = vec![];
    for at in 0..=text.len() {
        let byte = *random.pick(b"019() \nlnraoecp\0\xff:/");
        let mut more = text.to_vec();
        more.insert(at, byte);
        variants.extend([text[..at].to_vec(), more]);
        if at < text.len() {
            let mut less = text.to_vec();
            less.remove(at);
            let mut other = text.to_vec();
            other[at] = byte;
            variants.extend([less, other]);
        }
    }
    variants
}
