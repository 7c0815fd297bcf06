//! Link reports worked out by hand from #108 of document 02: one report, and which of two stands; each way of spoiling one; and the
//! second version against another reading of the same words.

use crate::examples::refused;
use crate::generate::scratch;
use crate::random::Random;
use crate::reports::{LinkReport, Which, read_one, stands};
use crate::sets::{LATER, SERIALS, any_report, serial};
use crate::spoilt_sets::{bad_line, bad_lines};
use crate::table::Refusal;
use crate::variants::at_every_byte;

/// A text is this report, and this report has that text.
fn is(text: &str, relay: u16, serial: u32, sees: &[u16]) {
    let report = LinkReport { relay, serial, sees: sees.to_vec() };
    assert_eq!(read_one(text.as_bytes()), Ok(report.clone()), "{text}");
    assert_eq!(report.text(), text);
}

/// A text is no report.
fn out(text: &str) {
    assert_eq!(read_one(text.as_bytes()), refused(19, 0), "{text}");
}

#[test]
fn reports_that_are_read() {
    is("(report 4 1 (sees))\n", 4, 1, &[]);
    is("(report 0 0 (sees 1))\n", 0, 0, &[1]);
    is("(report 4 8 (sees 0 2 3 5 999))\n", 4, 8, &[0, 2, 3, 5, 999]);
    is("(report 999 4294967295 (sees 0 998))\n", 999, 4_294_967_295, &[0, 998]);
    is("(report 10 4294967290 (sees 9 11))\n", 10, 4_294_967_290, &[9, 11]);
    is("(report 10 999999999 (sees 100))\n", 10, 999_999_999, &[100]);
    let all: Vec<u16> = (1..1000).collect();
    let longest = LinkReport { relay: 0, serial: u32::MAX, sees: all };
    assert_eq!(longest.text().len(), 3917);
    assert_eq!(read_one(longest.text().as_bytes()), Ok(longest));
}

#[test]
fn out_of_form() {
    out("");
    out("\n");
    out("(report 4 1 (sees))");
    out("(report 4 1 (sees))\r\n");
    out("(report 4 1 (sees))\n\n");
    out("\n(report 4 1 (sees))\n");
    out("(report 4 1 (sees))\n(report 4 1 (sees))\n");
    out("(report 4 1 (sees))\n(report 5 1 (sees))\n");
    out("(report 4 1 (sees))\n(");
    out("(report 4 1 (sees)) \n");
    out(" (report 4 1 (sees))\n");
    out("(report 4 1 (sees ))\n");
    out("(report 4 1 (sees 2 ))\n");
    out("(report 4 1 (sees  2))\n");
    out("(report 4 1  (sees 2))\n");
    out("(report 4  1 (sees 2))\n");
    out("(report  4 1 (sees 2))\n");
    out("(report 4 1(sees 2))\n");
    out("(report 4 1 (sees2))\n");
    out("(report 4 1 (sees\t2))\n");
    out("(report 4 1 (sees 2,3))\n");
    out("(report 4 1 (seen 2))\n");
    out("(report 4 1 (Sees 2))\n");
    out("(reports 4 1 (sees 2))\n");
    out("(report 4 1 (sees 2)\n");
    out("(report 4 1 (sees 2)))\n");
    out("(report 4 1 (sees) 2))\n");
    out("(report 4 1 2)\n");
    out("(report 4 (sees 2))\n");
    out("(report 1 (sees 2))\n");
    out("(report 4 1 1 (sees 2))\n");
    out("(report 4 1 (sees (sees 2))\n");
    out("(report 4 1 (sees 2 (sees 3))\n");
    out("(report x 1 (sees 2))\n");
    out("(report 4 -1 (sees 2))\n");
    out("(report 4 +1 (sees 2))\n");
    out("(report 4 1 (sees x))\n");
    assert_eq!(read_one(b"(report 4 1 (sees \xff))\n"), refused(19, 0));
    assert_eq!(read_one(b"(report 4 1 (sees \xd9\xa2))\n"), refused(19, 0));
    assert_eq!(read_one(b"(report 4 1 (sees))\0"), refused(19, 0));
}

#[test]
fn numbers_out_of_range() {
    for serial in ["4294967296", "4294967300", "9999999999", "10000000000", "42949672960", "00", "01", "04294967295", ""] {
        out(&format!("(report 4 {serial} (sees 2))\n"));
    }
    for relay in ["1000", "1001", "9999", "10000", "65536", "65540", "04", "00", ""] {
        out(&format!("(report {relay} 1 (sees 2))\n"));
        out(&format!("(report 4 1 (sees {relay}))\n"));
        out(&format!("(report 4 1 (sees 2 {relay}))\n"));
    }
    for sees in ["2 2", "3 2", "0 0", "2 3 3", "2 5 3", "4", "0 4", "4 5", "2 4 6", "999 1000"] {
        out(&format!("(report 4 1 (sees {sees}))\n"));
    }
}

/// What is said of two texts.
fn said(first: &str, second: &str) -> Result<Which, Refusal> {
    stands(first.as_bytes(), second.as_bytes())
}

/// Of two reports of relay 4 with these serials.
fn serials(first: u32, second: u32) -> Result<Which, Refusal> {
    said(&format!("(report 4 {first} (sees 2 3))\n"), &format!("(report 4 {second} (sees))\n"))
}

#[test]
fn which_stands() {
    let (first, second) = (Ok(Which::First), Ok(Which::Second));
    let (half, last) = (2_147_483_648, 4_294_967_295);
    for (one, other) in [
        (0, 1),
        (7, 8),
        (0, half - 1),
        (1, half),
        (half - 1, half),
        (half, last),
        (half + 1, last),
        (half + 1, 0),
        (half + 2, 1),
        (last, 0),
        (last, 3),
        (last, half - 2),
        (last - 1, half - 3),
    ] {
        assert_eq!(serials(one, other), second, "{one} {other}");
        assert_eq!(serials(other, one), first, "{other} {one}");
    }
    for (one, other) in [(0, half), (1, half + 1), (half - 1, last), (1_000_000_000, 3_147_483_648)] {
        assert_eq!(serials(one, other), refused(21, 0), "{one} {other}");
        assert_eq!(serials(other, one), refused(21, 0), "{other} {one}");
    }
    for serial in SERIALS {
        assert_eq!(serials(serial, serial), refused(21, 0));
        let text = format!("(report 4 {serial} (sees 2 3))\n");
        assert_eq!(said(&text, &text), first);
    }
}

#[test]
fn which_refusal_is_first() {
    let both = |one: &str, other: &str, number| {
        assert_eq!(said(one, other), refused(number, 0), "{one}{other}");
        assert_eq!(said(other, one), refused(number, 0), "{other}{one}");
    };
    both("(report 4 9 (sees 2))\n", "(report 5 9 (sees 2))\n", 20);
    both("(report 4 9 (sees 2))\n", "(report 5 2147483657 (sees 2))\n", 20);
    both("(report 4 9 (sees))\n", "(report 999 10 (sees))\n", 20);
    both("(report 4 9 (sees 2))\n", "(report 5 9 (sees 5))\n", 19);
    both("(report 4 9 (sees 2))\n", "(report 4 9 (sees 4))\n", 19);
    both("(report 4 9 (sees 2))\n", "", 19);
    both("(report 4 9 (sees 2))\n", "(report 4 9 (sees 2))", 19);
    both("(report 4 9 (sees 2))\n", "(report 4 9 (sees 2))\n(report 4 9 (sees 2))\n", 19);
    both("(report 4 9 (sees 2))\n", "(report 4 9 (sees 3))\n", 21);
    both("(report 4 9 (sees 2))\n", "(report 4 9 (sees))\n", 21);
    both("", "", 19);
    both("(report", "(report", 19);
    both("(report 4 4294967296 (sees))\n", "(report 4 4294967296 (sees))\n", 19);
}

/// Another reading of a text: whatever stands there, its runs of digits are taken as numbers, and it is a report exactly if these fit
/// and the text of them is the same again.
fn guessed(text: &[u8]) -> Option<LinkReport> {
    let runs = text.split(|byte| !byte.is_ascii_digit()).filter(|run| !run.is_empty());
    let value = |run: &[u8]| run.iter().fold(0u128, |value, byte| (10 * value + u128::from(byte - b'0')).min(1 << 100));
    let numbers: Vec<u128> = runs.map(value).collect();
    let (&[relay, serial], sees) = numbers.split_first_chunk::<2>()?;
    let fits = serial < 1 << 32 && relay < 1000 && sees.iter().all(|&other| other < 1000 && other != relay);
    let rising = (1..sees.len()).all(|at| sees[at] > sees[at - 1]);
    let sees = sees.iter().map(|&other| other as u16).collect();
    let report = LinkReport { relay: relay as u16, serial: serial as u32, sees };
    (fits && rising && report.text().as_bytes() == text).then_some(report)
}

/// Which of two serials comes later, as a signed difference says.
fn signed(first: &[u8], second: &[u8]) -> Result<Which, Refusal> {
    let (Some(one), Some(other)) = (guessed(first), guessed(second)) else { return refused(19, 0) };
    match other.serial.wrapping_sub(one.serial).cast_signed() {
        _ if one.relay != other.relay => refused(20, 0),
        1.. => Ok(Which::Second),
        0 if first == second => Ok(Which::First),
        0 | i32::MIN => refused(21, 0),
        _ => Ok(Which::First),
    }
}

/// The same said of two texts both ways round by both; gives what.
fn alike(first: &[u8], second: &[u8]) -> [usize; 2] {
    [(first, second), (second, first)].map(|(first, second)| {
        let outcome = stands(first, second);
        let shown = [first, second].map(String::from_utf8_lossy);
        assert_eq!(outcome, signed(first, second), "{shown:?}");
        outcome.map_or_else(|refusal| refusal.number as usize, |which| which as usize)
    })
}

#[test]
fn two_readings_of_reports() {
    let random = &mut Random::new(8);
    let mut read = [0; 2];
    for _ in 0..400 {
        let mut report = any_report(random);
        report.sees.truncate(random.below(6));
        let text = report.text();
        for (kind, spoil) in bad_lines() {
            let Some(bad) = spoil(random, &report) else { continue };
            assert_eq!(read_one(&bad), refused(19, 0), "{kind}: {:?}", String::from_utf8_lossy(&bad));
            assert_eq!(guessed(&bad), None, "{kind}");
        }
        let mut others = at_every_byte(random, text.as_bytes());
        others.push(text.into_bytes());
        for other in others {
            let one = read_one(&other).ok();
            read[usize::from(one.is_some())] += 1;
            assert_eq!(one, guessed(&other), "{:?}", String::from_utf8_lossy(&other));
        }
    }
    assert!(read.iter().all(|&times| times > 2000), "{read:?}");
}

#[test]
fn two_ways_to_stand() {
    let random = &mut Random::new(9);
    let mut said = [0; 22];
    for turn in 0..20_000 {
        let first = any_report(random);
        let (_, change) = LATER[turn % LATER.len()];
        let mut second = first.clone();
        change(random, &mut second);
        let mut texts = [first.text().into_bytes(), second.text().into_bytes()];
        if random.once_in(6) {
            texts[random.below(2)] = bad_line(random, &first).1;
        }
        if random.once_in(6) {
            let at = random.below(2);
            scratch(random, &mut texts[at]);
        }
        alike(&texts[0], &texts[1]).into_iter().for_each(|code| said[code] += 1);
    }
    for _ in 0..20_000 {
        let [one, other] = [serial(random), serial(random)].map(|serial| format!("(report 7 {serial} (sees))\n").into_bytes());
        alike(&one, &other).into_iter().for_each(|code| said[code] += 1);
    }
    assert!([0, 1, 19, 20, 21].iter().all(|&code| said[code] > 1000), "{said:?}");
}
