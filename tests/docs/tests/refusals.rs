//! The tables of refusals, in docs/PROTOCOL.md, README.md and the header, tell the errno and the detail that stand in the reader's error messages; the header
//! tells by which numbers the normaliser refuses.

use cases::{Case, HandleCase};
use docs::tree;
use std::collections::{BTreeMap, BTreeSet};

const REQUEST_ERRORS: std::ops::RangeInclusive<u32> = 5..=25;

/// The error message of a refused case, with its refusal.
fn refused(mut case: HandleCase) -> Option<(u32, Vec<u8>)> {
    let HandleCase { family, admin, position, place, .. } = case;
    let (roll, debug, flags) = (&case.roll, &case.debug_names, &case.flag_names);
    let (settings, datagram, page) = (&mut case.settings, &case.datagram, &mut case.page);
    let answer = reader::handle(family, admin, roll, debug, flags, settings, datagram, position, place, page);
    let told = answer.kind == reader::REFUSED && answer.written > 0;
    told.then(|| (answer.refusal, case.page[..answer.written as usize].to_vec()))
}

/// For each refusal its errno and whether it tells a place (OFFS), what is missing (MISS), or nothing, over many cases.
fn told() -> BTreeMap<u32, (u32, &'static str)> {
    let mut found = BTreeMap::new();
    for case in (0..20_000).map(|number| cases::case(3, number)) {
        let Case::Handle(case) = case else { continue };
        let Some((number, message)) = refused(case) else { continue };
        let errno = i32::from_le_bytes(message[16..20].try_into().expect("four bytes"));
        let detail = match message.get(38) {
            None => "none",
            Some(2) => "OFFS",
            Some(_) => "MISS",
        };
        let row = (errno.unsigned_abs(), detail);
        assert_eq!(*found.entry(number).or_insert(row), row, "refusal {number}");
    }
    assert!(REQUEST_ERRORS.eq(found.keys().copied()), "not all refusals are reached");
    found
}

fn cells(line: &str) -> Vec<&str> {
    line.trim_matches('|').split('|').map(str::trim).collect()
}

#[test]
fn the_protocol_tells_errno_and_detail() {
    let page = tree::read("docs/PROTOCOL.md");
    for (number, (errno, detail)) in told() {
        let row =
            page.lines().map(cells).find(|row| row.len() == 4 && row[0] == number.to_string() && row[2].contains(' '));
        let row = row.unwrap_or_else(|| panic!("no row {number}"));
        assert_eq!(
            (row[2].split(' ').next(), row[3].split(':').next()),
            (Some(&*errno.to_string()), Some(detail)),
            "row {number}"
        );
    }
}

#[test]
fn readme_tells_the_errno() {
    let page = tree::read("README.md");
    let rows: Vec<Vec<&str>> = page.lines().map(cells).filter(|row| row.len() == 7).collect();
    for (number, (errno, _)) in told() {
        let (number, errno) = (number.to_string(), errno.to_string());
        let stands = rows.iter().any(|row| row[0] == number && row[2] == errno || row[4] == number && row[6] == errno);
        assert!(stands, "{number} with errno {errno}");
    }
}

#[test]
fn the_header_tells_errno_and_detail() {
    let names = [(1, "EPERM"), (2, "ENOENT"), (19, "ENODEV"), (22, "EINVAL"), (90, "EMSGSIZE"), (95, "EOPNOTSUPP")];
    let names = BTreeMap::from(names);
    let header = tree::read("include/ethnl.h");
    for (number, (errno, detail)) in told() {
        let row = header.lines().find(|line| {
            line.starts_with("#define ETHNL_REFUSAL_") && line.split_whitespace().nth(2) == Some(&number.to_string())
        });
        let row = row.unwrap_or_else(|| panic!("no line for {number}"));
        assert!(row.contains(&format!("/* {}:", names[&errno])), "{number} with errno {errno}");
        let says = |text: &str| row.contains(text);
        assert_eq!(
            (says("; OFFS "), says("; ETHNL_MISS_")),
            (detail == "OFFS", detail == "MISS"),
            "detail of {number}"
        );
    }
}

/// The numbers of a list such as "1 (names), 10 to 13".
fn listed(text: &str) -> BTreeSet<u32> {
    let number = |word: &str| word.parse::<u32>().unwrap_or_else(|_| panic!("not a number: {word}"));
    let range = |piece: &str| match piece.split_once(" to ") {
        Some((first, last)) => number(first)..=number(last),
        None => {
            let only = number(piece.split(' ').next().unwrap_or(""));
            only..=only
        }
    };
    text.split(", ").flat_map(range).collect()
}

#[test]
fn the_header_tells_the_refusals_of_the_normaliser() {
    let header = tree::read("include/ethnl.h");
    let refusals = header.split(" * refusal: ").nth(1).and_then(|rest| rest.split(".\n").next()).expect("its refusals");
    let mut met = BTreeSet::new();
    for case in (0..20_000).map(|number| cases::case(3, number)) {
        let Case::Normalise(mut case) = case else { continue };
        met.insert(reader::normalise(&case.contents, &case.names, &mut case.page).0);
    }
    met.remove(&0);
    assert_eq!(listed(refusals), met);
}
