//! The keeper program: bytes in, bytes out. What it keeps is document 01's, what is withdrawn is #105's of document 02; the form of its
//! lines is that of docs/DESK.md.

use crate::forests::cut;
use crate::table::Refusal;
use crate::text::{form, read_whole};

fn list(input: &[u8]) -> Result<String, Refusal> {
    let (asked, start) = form(input, 0, "(keep #)\n").map_err(|place| Refusal { number: 1, place })?;
    let k = asked[0];
    let net = read_whole(&input[start..])?;
    let mut marks = [0; 3000];
    let kept = cut(&net, k, &mut marks)?;
    let mut list = format!("(lease (k {k}))\n");
    let (mut dropped, mut withdrawn) = (0, 0);
    for (link, (a, b)) in net.links().enumerate() {
        let word = match (net.whole(link), marks[link]) {
            (false, _) => {
                withdrawn += 1;
                "idle"
            }
            (true, 1) => "keep",
            (true, _) => {
                dropped += 1;
                "drop"
            }
        };
        list += &format!("({word} {link} {a} {b})\n");
    }
    Ok(list + &format!("(kept {kept})\n(dropped {dropped})\n(withdrawn {withdrawn})\n(end)\n"))
}

/// What the keeper prints for an input.
pub fn keep(input: &[u8]) -> String {
    list(input).unwrap_or_else(|refusal| refusal.line())
}
