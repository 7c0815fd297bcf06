//! The surer program: bytes in, bytes out. The figure is that of document 02, #107; the form of its lines is that of docs/DESK.md.

use crate::forests::{links, ordering};
use crate::plan::sheet_for;
use crate::sweep::Wish;
use crate::table::Refusal;
use crate::text::read_whole;

fn figure(input: &[u8]) -> Result<String, Refusal> {
    let net = read_whole(input)?;
    let order = ordering(&net);
    let [.., to, from] = order[..] else {
        return Ok(format!("(none (serving {}))\n", order.len()));
    };
    let figure = links(&net)[usize::from(from)];
    if !(1..=32).contains(&figure) {
        return Ok(format!("(none (from {from}) (to {to}) (links {figure}))\n"));
    }
    Ok(sheet_for(&net, Wish { k: figure as u16, from, to })?.text())
}

/// What the surer prints for an input.
pub fn sure(input: &[u8]) -> String {
    figure(input).unwrap_or_else(|refusal| refusal.line())
}
