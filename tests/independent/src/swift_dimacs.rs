//! The import of drawings by the methods of an ordinary program that is to be fast.

use crate::swift::{link, no_pairs};
use crate::swift_text::{cleared, number, word};
use crate::table::{Refusal, refuse};
use crate::text::counted;

/// The comment lines from here on.
fn comments(text: &[u8], at: &mut usize) -> Result<(), Refusal> {
    while text.get(*at) == Some(&b'c') {
        *at += 1;
        if text.get(*at) != Some(&b'\n') {
            word(text, at, b" ")?;
        }
        *at += text[*at..].iter().position(|&byte| byte == b'\n').unwrap_or(text.len() - *at);
        word(text, at, b"\n")?;
    }
    Ok(())
}

fn import_lines(text: &[u8], lows: &mut [u16], highs: &mut [u16], states: &mut [u16]) -> Result<(u16, u16), Refusal> {
    let mut at = 0;
    let numbers = |at: &mut usize, front: &[u8]| {
        comments(text, at)?;
        word(text, at, front)?;
        let one = number(text, at)?;
        word(text, at, b" ")?;
        let two = number(text, at)?;
        word(text, at, b"\n")?;
        Ok((one, two))
    };
    let (n, m) = numbers(&mut at, b"p edge ")?;
    counted(n, m, lows.len().min(highs.len()), states.len())?;
    let mut seen = no_pairs(n);
    for index in 0..usize::from(m) {
        let (u, v) = numbers(&mut at, b"e ")?;
        if u == 0 || v == 0 {
            return refuse(5, index);
        }
        let (a, b) = (u.min(v) - 1, u.max(v) - 1);
        link(n, &mut seen, index, a, b)?;
        lows[index] = a;
        highs[index] = b;
    }
    comments(text, &mut at)?;
    states[..usize::from(n)].fill(1);
    if at < text.len() { refuse(2, at) } else { Ok((n, m)) }
}

/// The import. Only 2 is another number here: 18.
pub fn import(text: &[u8], lows: &mut [u16], highs: &mut [u16], states: &mut [u16]) -> Result<(u16, u16), Refusal> {
    let answer = import_lines(text, lows, highs, states);
    let answer = answer.map_err(|refusal| if refusal.number == 2 { Refusal { number: 18, ..refusal } } else { refusal });
    cleared(answer, lows, highs, states)
}
