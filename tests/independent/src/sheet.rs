//! A sheet: what it says, and its text.

/// A route, relay by relay, with the indices of its links in turn.
#[derive(Clone, Debug, PartialEq, Eq)]
pub struct Route {
    pub relays: Vec<u16>,
    pub over: Vec<u16>,
}

/// What a sheet says, right or wrong.
#[derive(Clone, Debug, PartialEq, Eq)]
pub struct Sheet {
    pub from: u16,
    pub to: u16,
    pub k: u16,
    pub routes: Vec<Route>,
    pub kept: u16,
}

/// A line of numbers behind a word.
fn line(word: &str, numbers: &[u16]) -> String {
    let numbers: String = numbers.iter().map(|number| format!(" {number}")).collect();
    format!("({word}{numbers})\n")
}

impl Sheet {
    pub fn text(&self) -> String {
        let Sheet { from, to, k, routes, kept } = self;
        let mut text = format!("(sheet (from {from}) (to {to}) (k {k}))\n");
        for Route { relays, over } in routes {
            text += &line("route", relays);
            text += &line("over", over);
        }
        text + &format!("(kept {kept})\n(end)\n")
    }
}
