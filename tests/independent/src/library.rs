//! The proved static library behind safe functions. A slice goes over as its pointer and its length.

use crate::table::{Network, Refusal};

/// What the library reports: 0 or a refusal's number, and the two entries of the answer.
#[derive(Clone, Copy, Debug, PartialEq, Eq)]
pub struct Report {
    pub code: u32,
    pub answer: [u64; 2],
}

impl Report {
    /// What document 01 asks the library to report, with zeros for what is not named.
    pub fn of(outcome: Result<[u64; 2], Refusal>) -> Report {
        match outcome {
            Ok(answer) => Report { code: 0, answer },
            Err(Refusal { number, place }) => Report { code: number, answer: [place as u64, 0] },
        }
    }

    /// The same where one value is named.
    pub fn one<T: Into<u64>>(outcome: Result<T, Refusal>) -> Report {
        Report::of(outcome.map(|value| [value.into(), 0]))
    }
}

/// Calls with an answer that holds rubbish, so that what is not written shows.
fn report(call: impl FnOnce(*mut u64) -> u32) -> Report {
    let mut answer = [0x5a5a_5a5a_5a5a_5a5a; 2];
    let code = call(answer.as_mut_ptr());
    Report { code, answer }
}

/// The operations on a table: a safe function and the C function behind it, with its numbers and its lent lists.
macro_rules! on_tables {
    ($($name:ident = $symbol:ident ($($number:ident),*) ($($list:ident: $entry:ty),*);)*) => {
        unsafe extern "C" {
            $(fn $symbol(
                n: u16, lows: *const u16, _: usize, highs: *const u16, _: usize, states: *const u16, _: usize,
                $($number: u16,)* $($list: *mut $entry, _: usize,)* answer: *mut u64,
            ) -> u32;)*
        }
        $(
            #[allow(clippy::too_many_arguments)]
            pub fn $name(net: &Network, $($number: u16,)* $($list: &mut [$entry]),*) -> Report {
                let Network { n, lows, highs, states } = net;
                report(|answer| unsafe {
                    $symbol(
                        *n, lows.as_ptr(), lows.len(), highs.as_ptr(), highs.len(), states.as_ptr(), states.len(),
                        $($number,)* $($list.as_mut_ptr(), $list.len(),)* answer,
                    )
                })
            }
        )*
    };
}

on_tables! {
    check = nolkisei_check () ();
    write = nolkisei_write () (buffer: u8);
    order = nolkisei_order () (relays: u16, places: u16);
    split = nolkisei_split () (forests: u16);
    cut = nolkisei_cut (k) (marks: u16);
    route = nolkisei_route (k, from, to) (counts: u16, relays: u16, scratch: u16);
    route_links = nolkisei_route_links (k, from, to) (counts: u16, relays: u16, links: u16, scratch: u16);
}

/// The operations that read a text into a table: a safe function and the C function behind it.
macro_rules! of_texts {
    ($($name:ident = $symbol:ident;)*) => {
        unsafe extern "C" {
            $(fn $symbol(
                text: *const u8, _: usize, lows: *mut u16, _: usize, highs: *mut u16, _: usize, states: *mut u16, _: usize,
                answer: *mut u64,
            ) -> u32;)*
        }
        $(
            pub fn $name(text: &[u8], lows: &mut [u16], highs: &mut [u16], states: &mut [u16]) -> Report {
                let [low, high, state] = [&mut *lows, &mut *highs, &mut *states].map(|list| list.as_mut_ptr());
                report(|answer| unsafe {
                    $symbol(text.as_ptr(), text.len(), low, lows.len(), high, highs.len(), state, states.len(), answer)
                })
            }
        )*
    };
}

of_texts! {
    read = nolkisei_read;
    import = nolkisei_import;
}

unsafe extern "C" {
    fn nolkisei_pair(a: u16, b: u16, answer: *mut u64) -> u32;
    fn nolkisei_verify(
        n: u16,
        lows: *const u16,
        lows_length: usize,
        highs: *const u16,
        highs_length: usize,
        states: *const u16,
        states_length: usize,
        text: *const u8,
        text_length: usize,
        answer: *mut u64,
    ) -> u32;
    fn nolkisei_stands(first: *const u8, _: usize, second: *const u8, _: usize, answer: *mut u64) -> u32;
    fn nolkisei_reports(
        n: u16,
        text: *const u8,
        text_length: usize,
        lows: *mut u16,
        lows_length: usize,
        highs: *mut u16,
        highs_length: usize,
        states: *mut u16,
        states_length: usize,
        answer: *mut u64,
    ) -> u32;
    fn nolkisei_plan(input: *const u8, _: usize, output: *mut u8, _: usize, answer: *mut u64) -> u32;
    fn nolkisei_keep(input: *const u8, _: usize, output: *mut u8, _: usize, answer: *mut u64) -> u32;
}

pub fn pair(a: u16, b: u16) -> Report {
    report(|answer| unsafe { nolkisei_pair(a, b, answer) })
}

pub fn verify(net: &Network, text: &[u8]) -> Report {
    let Network { n, lows, highs, states } = net;
    let [low, high, state] = [lows, highs, states].map(|list| list.as_ptr());
    report(|answer| unsafe {
        nolkisei_verify(*n, low, lows.len(), high, highs.len(), state, states.len(), text.as_ptr(), text.len(), answer)
    })
}

pub fn stands(first: &[u8], second: &[u8]) -> Report {
    report(|answer| unsafe { nolkisei_stands(first.as_ptr(), first.len(), second.as_ptr(), second.len(), answer) })
}

pub fn reports(n: u16, text: &[u8], lows: &mut [u16], highs: &mut [u16], states: &mut [u16]) -> Report {
    let [low, high, state] = [&mut *lows, &mut *highs, &mut *states].map(|list| list.as_mut_ptr());
    report(|answer| unsafe {
        nolkisei_reports(n, text.as_ptr(), text.len(), low, lows.len(), high, highs.len(), state, states.len(), answer)
    })
}

pub fn plan(input: &[u8], output: &mut [u8]) -> Report {
    report(|answer| unsafe { nolkisei_plan(input.as_ptr(), input.len(), output.as_mut_ptr(), output.len(), answer) })
}

pub fn keep(input: &[u8], output: &mut [u8]) -> Report {
    report(|answer| unsafe { nolkisei_keep(input.as_ptr(), input.len(), output.as_mut_ptr(), output.len(), answer) })
}
