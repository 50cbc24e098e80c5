//! docs/PROTOCOL.md: its bytes are those of the reader, its sections those that the comments cite.

use docs::tree;

const FIRST_ATTRIBUTE: usize = 20;

fn page() -> String {
    tree::read("docs/PROTOCOL.md")
}

fn bytes(text: &str) -> Vec<u8> {
    text.split_whitespace().map(|pair| u8::from_str_radix(pair, 16).expect("a byte in hexadecimal")).collect()
}

/// The annotated blocks of bytes in order: of each line what stands before the first run of two blanks. Blocks of C are passed over.
fn blocks(page: &str) -> Vec<Vec<u8>> {
    let block = |text: &str| text.lines().flat_map(|line| bytes(line.split("  ").next().unwrap_or(""))).collect();
    page.split("```").skip(1).step_by(2).filter(|text| !text.starts_with("c\n")).map(block).collect()
}

#[test]
fn blocks_are_requests_and_their_answers() {
    let found = blocks(&page());
    let [all, ports, named, barred, error, lacking, missing, two_bits, disagreeing, lists, counts, request, reply, two, answers] =
        &found[..]
    else {
        panic!("{} blocks", found.len())
    };
    assert_eq!(&reader::run(lists), counts);
    assert_eq!(&reader::run(all), ports);
    assert_eq!(&reader::run(named), barred);
    assert_eq!(&reader::run(lacking), missing);
    assert_eq!(&reader::run(two_bits), disagreeing);
    assert_eq!(&reader::run(request), reply);
    assert_eq!(&reader::run(two), answers);
    let mut faulty = request.clone();
    faulty[6] = 5;
    faulty[FIRST_ATTRIBUTE + 2] = 9;
    assert_eq!(&reader::run(&faulty), error);
}

#[test]
fn entries_of_a_name_list_are_as_told() {
    let page = page();
    let told = page
        .split("Without COUNTS_ONLY each STRINGSET")
        .nth(1)
        .and_then(|rest| rest.lines().next())
        .expect("the sentence");
    let quoted: Vec<Vec<u8>> = told.split('`').skip(1).step_by(2).map(bytes).collect();
    let [lists, ..] = &blocks(&page)[9..] else { panic!("no request for name lists") };
    let mut request = lists[..lists.len() - 4].to_vec();
    request[0] -= 4;
    let reply = reader::run(&request);
    assert!(reply.windows(quoted.concat().len()).any(|part| part == quoted.concat()));
}

/// A declaration without its line ends and without what blanks are doubled.
fn in_one_line(text: &str) -> String {
    text.split_whitespace().collect::<Vec<_>>().join(" ")
}

#[test]
fn prototypes_are_those_of_the_header() {
    let header = in_one_line(&tree::read("include/ethnl.h"));
    let page = page();
    let block = page.split("```c\n").nth(1).and_then(|rest| rest.split("```").next()).expect("a block of C");
    let prototypes: Vec<String> = block.split_inclusive(';').map(in_one_line).filter(|text| !text.is_empty()).collect();
    assert_eq!(prototypes.len(), 4);
    for prototype in prototypes {
        assert!(header.contains(&prototype), "not in the header: {prototype}");
    }
}

/// The cells of the sheet's rows.
fn rows(page: &str) -> Vec<Vec<String>> {
    let sheet = page.split("## Sheet of marked bitsets").nth(1).expect("the sheet");
    let cells = |line: &str| line.split('|').map(|cell| cell.trim().trim_matches('`').to_string()).collect();
    sheet.lines().filter(|line| line.starts_with("| P")).map(cells).collect()
}

/// A message for port 3 of the program's box: a command and what stands behind the header.
fn message(command: u8, flags: u8, header_flags: u8, rest: &[u8]) -> Vec<u8> {
    let mut made = bytes("00 00 00 00 19 00 01 00 07 00 00 00 09 00 00 00 00 01 00 00 14 00 01 80 08 00 01 00 03 00 00 00 08 00 03 00 00 00 00 00");
    made.extend_from_slice(rest);
    let length = made.len() as u32;
    made[..4].copy_from_slice(&length.to_le_bytes());
    (made[6], made[16], made[36]) = (flags, command, header_flags);
    made
}

/// What a SET of the contents writes, then a compact GET.
fn exchange(contents: &[u8]) -> (Vec<u8>, Vec<u8>) {
    let mut nest = vec![contents.len() as u8 + 4, 0, 2, 0x80];
    nest.extend_from_slice(contents);
    let mut datagram = message(14, 1, 0, &nest);
    let told = reader::run(&datagram);
    datagram.extend(message(13, 1, 1, &[]));
    let both = reader::run(&datagram);
    (told.clone(), both[told.len()..].to_vec())
}

/// The bits of the two words at the end of a compact reply, as the sheet writes them.
fn set_in(reply: &[u8]) -> String {
    let last: [u8; 8] = reply[reply.len() - 8..].try_into().expect("two words");
    let bits = u64::from_le_bytes(last);
    let listed: Vec<String> = (0..64).filter(|bit| bits >> bit & 1 == 1).map(|bit| bit.to_string()).collect();
    format!("{{{}}}", listed.join(", "))
}

/// Two words in hexadecimal, as the sheet writes them.
fn words_in(bytes: &[u8]) -> String {
    let word = |at: usize| u32::from_le_bytes(bytes[at..at + 4].try_into().expect("a word"));
    format!("{:X},{:X}", word(0), word(4))
}

/// The name of the attribute that OFFS points at, for the three that the sheet has.
fn place_in(contents: &[u8], error: &[u8]) -> &'static str {
    const CONTENTS: usize = 44;
    let at = u32::from_le_bytes(error[40..44].try_into().expect("OFFS")) as usize - CONTENTS;
    match contents[at + 2] {
        1 => "INDEX",
        4 => "VALUE",
        5 => "MASK",
        other => panic!("type {other}"),
    }
}

#[test]
fn the_sheet_is_what_the_reader_does() {
    let mut names = [0; 40 * 32];
    names[3 * 32..3 * 32 + 4].copy_from_slice(b"lldp");
    let found = rows(&page());
    assert_eq!(found.len(), 13);
    for row in found {
        let [_, name, _, contents, answer, value, mask, _] = &row[..] else { panic!("{} cells", row.len()) };
        let contents = bytes(contents);
        let mut form = [0; 144];
        let (number, written) = reader::normalise(&contents, &names, &mut form);
        let (told, reply) = exchange(&contents);
        if number == 0 {
            assert_eq!((told.len(), &set_in(&reply)), (0, answer), "{name}");
            assert_eq!(
                (written, words_in(&form[12..20]), words_in(&form[24..32])),
                (32, value.clone(), mask.clone()),
                "{name}"
            );
        } else {
            assert_eq!(&format!("{number} at {}", place_in(&contents, &told)), answer, "{name}");
        }
    }
}

#[test]
fn sections_stand_in_the_order_of_document_01() {
    let titles: Vec<String> = page().lines().filter_map(|line| line.strip_prefix("## ").map(str::to_string)).collect();
    let expected = [
        "What the box reads and writes",
        "The box a call is given",
        "Sizes on the wire",
        "What a call says back",
        "Bitsets",
        "Replies",
        "Sheet of marked bitsets",
        "How firm each statement is",
        "Matching forms to places",
    ];
    assert_eq!(titles, expected);
}

/// A comment over several lines is read as one; of `Document 01, "TITLE"` the title.
fn cited(text: &str) -> Vec<String> {
    let joined = text.replace("\n-- ", " ").replace("\n// ", " ").replace("\n//! ", " ");
    let title = |rest: &str| rest.split('"').next().map(str::to_string);
    joined.split("ocument 01, \"").skip(1).filter_map(title).collect()
}

#[test]
fn every_section_that_a_comment_cites_is_there() {
    let page = page();
    let mut seen = 0;
    for (path, text) in tree::sources() {
        for title in cited(&text) {
            assert!(page.contains(&format!("## {title}\n")), "{}: no section \"{title}\"", path.display());
            seen += 1;
        }
    }
    assert!(seen > 60, "only {seen} comments cite a section");
}
