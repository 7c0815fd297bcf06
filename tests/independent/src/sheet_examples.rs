//! Sheets read back with the mesh and the square, worked out by hand from #103 of document 02, and the plain program against the
//! fast one on seeded sheets.

use crate::examples::{mesh, net, refused, square};
use crate::forests::numbers;
use crate::generate::{any, scratch};
use crate::plan::plan;
use crate::random::Random;
use crate::sheets::{CHANGES, Known, STILL, crossing, direct_twice, flowing, formerly, there_and_back};
use crate::swift_sheet;
use crate::table::{Network, Refusal};
use crate::text::text;
use crate::verify::{Fault, read, verify};
use crate::wishes::{line, wish};

/// What is said of these lines between the head and the end of a sheet, from 4 to 1 in the mesh, k 2.
fn between(lines: &str) -> Result<Vec<Fault>, Refusal> {
    verify(&mesh(), format!("(sheet (from 4) (to 1) (k 2))\n{lines}(end)\n").as_bytes())
}

/// The same of a whole sheet of a network.
fn of(net: Network, text: &str) -> Result<Vec<Fault>, Refusal> {
    verify(&net, text.as_bytes())
}

#[test]
fn sheets_that_hold() {
    let (one, two) = ("(route 4 3 1)\n(over 6 3)\n", "(route 4 2 1)\n(over 5 2)\n");
    assert_eq!(between(&format!("{one}{two}(kept 7)\n")), Ok(vec![]));
    assert_eq!(between(&format!("{two}{one}(kept 7)\n")), Ok(vec![]));
    assert_eq!(between(&format!("{one}(route 4 2 0 1)\n(over 5 1 0)\n(kept 7)\n")), Ok(vec![]));
    let routes = "(route 0 1 2)\n(over 0 1)\n(route 0 3 2)\n(over 3 2)\n";
    assert_eq!(of(square(), &format!("(sheet (from 0) (to 2) (k 2))\n{routes}(kept 4)\n(end)\n")), Ok(vec![]));
    assert_eq!(of(mesh(), "(sheet (from 0) (to 1) (k 1))\n(route 0 1)\n(over 0)\n(kept 4)\n(end)\n"), Ok(vec![]));
}

/// Sheets of the planner that began with relay 0: their routes hold, and `kept` may be another number by now.
#[test]
fn older_sheets() {
    let sheet = |k: u16, routes: &str, kept: u16| format!("(sheet (from 4) (to 1) (k {k}))\n{routes}\n(kept {kept})\n(end)\n");
    assert_eq!(of(mesh(), &sheet(1, "(route 4 2 0 1)\n(over 5 1 0)", 4)), Ok(vec![]));
    let other = || net(5, &[(0, 2), (0, 3), (1, 2), (1, 3), (1, 4), (2, 4), (3, 4)]);
    let routes = "(route 4 2 1)\n(over 5 2)\n(route 4 1)\n(over 4)";
    assert_eq!(of(other(), &sheet(2, routes, 6)), Ok(vec![Fault::Kept]));
    assert_eq!(of(other(), &sheet(2, routes, 7)), Ok(vec![]));
}

#[test]
fn one_fault() {
    let (one, two) = ("(route 4 3 1)\n(over 6 3)\n", "(route 4 2 1)\n(over 5 2)\n");
    let with = |first: &str| between(&format!("{first}{two}(kept 7)\n"));
    assert_eq!(with(""), Ok(vec![Fault::Routes]));
    assert_eq!(between("(kept 7)\n"), Ok(vec![Fault::Routes]));
    assert_eq!(with("(route 3 1)\n(over 3)\n"), Ok(vec![Fault::Ends]));
    assert_eq!(with("(route 4 3)\n(over 6)\n"), Ok(vec![Fault::Ends]));
    assert_eq!(with("(route 4 3 1 0 1)\n(over 6 3 0 0)\n"), Ok(vec![Fault::Twice]));
    assert_eq!(with("(route 4 3 1)\n(over 6)\n"), Ok(vec![Fault::Count]));
    assert_eq!(with("(route 4 3 1)\n(over 6 3 3)\n"), Ok(vec![Fault::Count]));
    assert_eq!(with("(route 4 3 1)\n(over 3 6)\n"), Ok(vec![Fault::Link]));
    assert_eq!(with("(route 4 3 1)\n(over 6 7)\n"), Ok(vec![Fault::Link]));
    assert_eq!(with("(route 4 3 1)\n(over 6 9999)\n"), Ok(vec![Fault::Link]));
    let crossing = "(route 4 2 0 1)\n(over 5 1 0)\n(route 4 3 2 1)\n(over 6 4 2)\n";
    assert_eq!(between(&format!("{crossing}(kept 7)\n")), Ok(vec![Fault::SharedRelay]));
    assert_eq!(between(&format!("{one}{two}(kept 6)\n")), Ok(vec![Fault::Kept]));
    let direct = "(route 0 1)\n(over 0)\n";
    let twice = format!("(sheet (from 0) (to 1) (k 2))\n{direct}{direct}(kept 4)\n(end)\n");
    assert_eq!(of(square(), &twice), Ok(vec![Fault::SharedLink]));
}

#[test]
fn more_faults() {
    let two = "(route 4 2 1)\n(over 5 2)\n";
    assert_eq!(between(&format!("(route 4 5 1)\n(over 6 3)\n{two}(kept 7)\n")), Ok(vec![Fault::NoRelay, Fault::Link]));
    assert_eq!(between(&format!("{two}{two}(kept 7)\n")), Ok(vec![Fault::SharedRelay, Fault::SharedLink]));
    let same = "(sheet (from 1) (to 1) (k 1))\n(route 1 0 1)\n(over 0 0)\n(kept 4)\n(end)\n";
    assert_eq!(of(mesh(), same), Ok(vec![Fault::SameEnds, Fault::Twice]));
    let alone = "(sheet (from 0) (to 1) (k 1))\n(route 0 1)\n(over 0)\n(kept 0)\n(end)\n";
    assert_eq!(of(net(1, &[]), alone), Ok(vec![Fault::NoRelay, Fault::Link]));
}

#[test]
fn refused_sheets() {
    let at = |lines: &str, place: usize| assert_eq!(between(lines), refused(14, place), "{lines}");
    at("(route 4 3 1)\n(route 4 2 1)\n(kept 7)\n", 45);
    at("(route 4)\n(over 6)\n(kept 7)\n", 38);
    at("(route 4 )\n(over 6)\n(kept 7)\n", 39);
    at("(route 4 3)\n(over)\n(kept 7)\n", 47);
    at("(route 4 3)\n(over 6]\n(kept 7)\n", 49);
    at("(raute 4 3)\n(over 6)\n(kept 7)\n", 32);
    at("(kapt 7)\n", 32);
    at("(Kept 7)\n", 31);
    at("kept 7)\n", 30);
    at("(route 4 31000)\n(over 6)\n(kept 7)\n", 43);
    at("(route 4 3 01)\n(over 6 3)\n(kept 7)\n", 42);
    at("(route 4 3  1)\n(over 6 3)\n(kept 7)\n", 41);
    at("(route 4 3 1) \n(over 6 3)\n(kept 7)\n", 43);
    at("(kept 7)\n(route 4 3 1)\n", 40);
    at("", 31);
    at("(kept 7)\n(end)\n", 45);
    let mesh = |text: &str| of(mesh(), text);
    assert_eq!(mesh(""), refused(14, 0));
    assert_eq!(mesh("(refused 13 0)\n"), refused(14, 1));
    assert_eq!(mesh("(sheet (from 04) (to 1) (k 2))\n"), refused(14, 14));
    assert_eq!(mesh("(sheet (from 4) (to 1) (k 2))\n(kept 7)\n(end)"), refused(14, 44));
    assert_eq!(mesh("(sheet (from 4) (to 1) (k 0))\n(kept 0)\n(end)\n"), refused(15, 0));
    assert_eq!(mesh("(sheet (from 4) (to 1) (k 33))\n(kept 0)\n(end)\n"), refused(15, 0));
    assert_eq!(mesh("(sheet (from 4) (to 1) (k 33))\n(kept 0)\n(end)"), refused(14, 45));
    assert_eq!(of(net(0, &[]), ""), refused(3, 0));
    assert_eq!(of(net(4, &[(0, 1), (2, 2)]), ""), refused(6, 1));
}

#[test]
fn two_ways_read_sheets() {
    let mut random = Random::new(3);
    let mut said = [0; 4];
    for _ in 0..400 {
        let net = any(&mut random, 120);
        let numbers = numbers(&net);
        let known = Known { net: &net, numbers: &numbers };
        let mut input = line(wish(&mut random, &net, &numbers));
        input.extend(text(&net).bytes());
        let ours = read(plan(&input).as_bytes()).ok();
        let others = [flowing, formerly, crossing, direct_twice, there_and_back].map(|make| make(&mut random, known));
        for mut sheet in others.into_iter().chain([ours]).flatten() {
            let mut texts = vec![sheet.text().into_bytes()];
            for (_, change) in STILL.iter().chain(&CHANGES) {
                let mut other = sheet.clone();
                change(&mut random, known, &mut other);
                texts.push(other.text().into_bytes());
            }
            sheet.routes.truncate(2);
            texts.extend((0..20).map(|_| {
                let mut text = sheet.text().into_bytes();
                scratch(&mut random, &mut text);
                text
            }));
            for text in texts {
                let outcome = verify(&net, &text).map(|faults| faults.is_empty());
                assert_eq!(swift_sheet::verify(&net, &text), outcome);
                said[outcome.map_or_else(|refusal| refusal.number as usize - 12, usize::from)] += 1;
            }
        }
    }
    assert!(said.iter().all(|&times| times > 100), "{said:?}");
}
