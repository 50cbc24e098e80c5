//! Each refusal from 5 to 24 but 9, in the ways in which document 01 and the requests C-11 to C-13 tell them apart. 25
//! cannot be met: the reply about both lists of 40 names is far shorter.

use super::making::*;
use cases::bitsets::{BIT, BITS, NOMASK, SIZE};
use cases::requests::{Request, ACK, BITSET, DUMP, HEADER, PORT_FLAGS, PORT_INDEX, PORT_NAME};
use cases::strsets::{self, CLASSES, FLAGS, ID, STRINGSET, STRINGSETS};
use cases::tree::{Attribute, Body};

fn refused(number: u32, what: &'static str, request: Request) -> Message {
    message(what, Outcome::Refused(number), request)
}

fn get(attributes: Vec<Attribute>) -> Request {
    request(PRIVFLAGS_GET, ACK, attributes)
}

/// 5 to 8, and the top level's 10 to 13.
pub fn of_message() -> Vec<Message> {
    let whole = || get(vec![port()]);
    let short = Attribute { stated: Some(3), ..port() };
    let long = Attribute { stated: Some(13), ..port() };
    vec![
        refused(5, "another family", Request { kind: 26, ..whole() }),
        refused(6, "no generic header", Request { generic: vec![], ..get(vec![]) }),
        refused(6, "half a generic header", Request { generic: vec![13, 1], ..get(vec![]) }),
        refused(7, "a command that is not listed", request(2, ACK, vec![port()])),
        refused(8, "a SET with both DUMP bits", set(PRIVFLAGS_SET, DUMP, vec![bits(vec![])])),
        refused(8, "the same, broken off", Request { stray: vec![4, 0, 1], ..set(DEBUG_SET, DUMP, vec![]) }),
        refused(10, "three bytes at the end", Request { stray: vec![4, 0, 1], ..whole() }),
        refused(10, "an attribute length of 3", get(vec![short])),
        refused(10, "an attribute longer than the message", get(vec![long])),
        refused(11, "type 3 at the top level", get(vec![port(), Attribute::leaf(3, &[])])),
        refused(11, "a bitset in a GET", get(vec![port(), Attribute::nest(BITSET, vec![])])),
        refused(12, "a header that is no nest", get(vec![Attribute::leaf(HEADER, &[])])),
        refused(12, "network byte order", get(vec![Attribute { kind: 0xC001, ..port() }])),
        refused(13, "no header", get(vec![])),
        refused(13, "no bitset", request(PRIVFLAGS_SET, 0, vec![port()])),
    ]
}

/// The header's 10 to 12, and 14 to 17.
pub fn of_header() -> Vec<Message> {
    let number = Attribute::number;
    let of = |parts| get(vec![header(parts)]);
    let stray = Attribute { body: Body::Nest(vec![number(PORT_INDEX, 3)], vec![0, 0]), ..port() };
    vec![
        refused(10, "two bytes at the header's end", get(vec![stray])),
        refused(11, "type 4 in the header", of(vec![number(PORT_INDEX, 3), number(4, 0)])),
        refused(12, "a name without its NUL", of(vec![Attribute::leaf(PORT_NAME, b"sw0")])),
        refused(14, "an empty header", of(vec![])),
        refused(14, "header flags alone", of(vec![number(PORT_FLAGS, 1)])),
        refused(15, "header flag 4", of(vec![number(PORT_INDEX, 3), number(PORT_FLAGS, 4)])),
        refused(16, "an unknown index", of(vec![number(PORT_INDEX, 4)])),
        refused(16, "an unknown name", of(vec![Attribute::name(PORT_NAME, b"sw1")])),
        refused(17, "another name", of(vec![number(PORT_INDEX, 3), Attribute::name(PORT_NAME, b"sw1")])),
    ]
}

/// 8 of a dump in the place of 14, and what goes before and behind it.
pub fn of_dump() -> Vec<Message> {
    let number = Attribute::number;
    let name = |name| Attribute::name(PORT_NAME, name);
    let of = |parts| dump(PRIVFLAGS_GET, ACK, parts);
    let none = request(PRIVFLAGS_GET, DUMP, vec![]);
    vec![
        refused(8, "a dump of the port by its index", of(vec![number(PORT_INDEX, 3), number(PORT_FLAGS, 1)])),
        refused(8, "a dump of the port by its name", of(vec![name(b"sw0")])),
        refused(8, "a dump of no port there is", of(vec![number(PORT_INDEX, 0), name(b"")])),
        refused(8, "a dump of the port with header flag 4", of(vec![number(PORT_FLAGS, 4), name(b"sw0")])),
        refused(11, "a bitset in a dump", request(DEBUG_GET, DUMP, vec![port(), Attribute::nest(BITSET, vec![])])),
        refused(
            12,
            "a dump of a port without its NUL",
            of(vec![number(PORT_INDEX, 3), Attribute::leaf(PORT_NAME, b"sw0")]),
        ),
        refused(13, "a dump without a header", none),
        refused(15, "a dump with header flag 4", of(vec![number(PORT_FLAGS, 5)])),
    ]
}

/// The bitset's 10 to 13, and 18 to 22 where no BIT carries index and name.
pub fn of_bitset() -> Vec<Message> {
    let of = |contents| set(PRIVFLAGS_SET, ACK, contents);
    let list = |listed| set(PRIVFLAGS_SET, 0, vec![bits(listed)]);
    let odd = Attribute::nest(BIT, vec![Attribute::number(4, 0)]);
    let word = || value(&[1]);
    vec![
        refused(10, "a bitset that is broken off", of(vec![size(3), Attribute { stated: Some(9), ..word() }])),
        refused(11, "type 6 in the bitset", of(vec![Attribute::leaf(6, &[])])),
        refused(11, "type 2 in BITS", of(vec![Attribute::nest(BITS, vec![Attribute::nest(2, vec![])])])),
        refused(11, "type 4 in a BIT", list(vec![bit_at(3, true), odd])),
        refused(12, "NOMASK with a payload", of(vec![Attribute::number(NOMASK, 1)])),
        refused(12, "SIZE of two bytes", of(vec![Attribute::leaf(SIZE, &[3, 0])])),
        refused(13, "no SIZE", of(vec![word()])),
        refused(13, "no VALUE", of(vec![nomask(), size(3)])),
        refused(13, "no MASK", of(vec![size(3), word()])),
        refused(18, "BITS with VALUE", of(vec![bits(vec![]), word()])),
        refused(18, "BITS with MASK", of(vec![bits(vec![]), mask(&[1])])),
        refused(18, "NOMASK with MASK", of(vec![nomask(), size(3), word(), mask(&[1])])),
        refused(19, "a mask of one word for 33 bits", of(vec![size(33), value(&[0, 0]), mask(&[0])])),
        refused(20, "bit 40 in VALUE under NOMASK", of(vec![nomask(), size(41), value(&[0, 256])])),
        refused(20, "index 40 after a good one", list(vec![bit_at(5, true), bit_at(40, true)])),
        refused(21, "an unknown bit name", list(vec![bit_called(b"lldp", true), bit_called(b"eee", true)])),
        refused(21, "an empty bit name", list(vec![bit_called(b"", true)])),
        refused(22, "a BIT with neither", list(vec![bit_at(6, true), bit_of_nothing()])),
    ]
}

/// 20, 21 and 23 of a BIT that carries index and name.
pub fn of_index_and_name() -> Vec<Message> {
    let list = |listed| set(PRIVFLAGS_SET, 0, vec![bits(listed)]);
    let other = || bit_of_both(5, b"lldp", true);
    let odd = Attribute::nest(BIT, vec![Attribute::number(4, 0)]);
    vec![
        refused(20, "index 40 beside a bit's name", list(vec![bit_of_both(40, b"lldp", true)])),
        refused(20, "index 40 beside an unknown name", list(vec![bit_of_both(40, b"eee", true)])),
        refused(21, "an unknown name beside an index", list(vec![bit_of_both(3, b"eee", true)])),
        refused(21, "an empty name beside an index", list(vec![bit_of_both(5, b"", true)])),
        refused(23, "index 5 beside the name of bit 3", list(vec![bit_at(6, true), other()])),
        refused(23, "the same under NOMASK", set(PRIVFLAGS_SET, ACK, vec![nomask(), bits(vec![other()])])),
        refused(23, "the same before type 4 in the next BIT", list(vec![other(), odd])),
    ]
}

/// What a request for name lists is refused by before its list is opened.
pub fn of_names() -> Vec<Message> {
    let number = Attribute::number;
    let of = |parts| names(ACK, vec![header(parts), strsets::list(&[77])]);
    let cut = |flags| Request { stray: vec![4, 0, 1], ..names(flags, vec![]) };
    let payload = number(strsets::COUNTS_ONLY, 1);
    vec![
        refused(8, "name lists with both DUMP bits", names(DUMP, vec![header(vec![])])),
        refused(8, "the same, broken off", cut(DUMP)),
        refused(8, "the same of the port, id 77", names(DUMP, vec![port(), strsets::list(&[77])])),
        refused(10, "three bytes at the end, without a header", cut(0)),
        refused(11, "type 4 beside the list", names(0, vec![port(), Attribute::leaf(4, &[])])),
        refused(12, "COUNTS_ONLY with a payload", names(0, vec![port(), payload])),
        refused(13, "name lists without a header", names(0, vec![strsets::list(&[77])])),
        refused(15, "header flag 4 without a port", of(vec![number(PORT_FLAGS, 4)])),
        refused(16, "name lists of an unknown port", of(vec![number(PORT_INDEX, 4)])),
        refused(17, "name lists by another name", of(vec![number(PORT_INDEX, 3), Attribute::name(PORT_NAME, b"sw1")])),
    ]
}

/// The list of names' own 10 to 13, and 24.
pub fn of_name_lists() -> Vec<Message> {
    let of = |sets| names(0, vec![port(), Attribute::nest(STRINGSETS, sets)]);
    let ids = |ids: &[u32]| names(ACK, vec![port(), strsets::list(ids)]);
    let no_port = |ids: &[u32]| names(0, vec![header(vec![]), strsets::list(ids)]);
    let set = |parts| Attribute::nest(STRINGSET, parts);
    let id = |id| Attribute::number(ID, id);
    let cut = || Attribute { body: Body::Nest(vec![], vec![0]), ..set(vec![]) };
    vec![
        refused(10, "a byte in a set", of(vec![strsets::set(FLAGS), cut()])),
        refused(11, "type 2 in the list", of(vec![strsets::set(77), Attribute::nest(2, vec![])])),
        refused(11, "COUNT in a set", of(vec![set(vec![id(FLAGS), Attribute::number(2, 40)])])),
        refused(11, "STRINGS in a set", of(vec![set(vec![id(FLAGS), Attribute::nest(3, vec![])])])),
        refused(12, "an id of two bytes", of(vec![set(vec![Attribute::leaf(ID, &[2, 0])])])),
        refused(13, "a set without its id", of(vec![strsets::set(CLASSES), set(vec![])])),
        refused(13, "the same before an id that is not offered", of(vec![set(vec![]), strsets::set(77)])),
        refused(24, "id 11, Wake-on-LAN", ids(&[11])),
        refused(24, "id 0 behind one that is offered", ids(&[FLAGS, 0])),
        refused(24, "private flags without a port", no_port(&[FLAGS])),
        refused(24, "the same behind message classes", no_port(&[CLASSES, FLAGS])),
        refused(24, "the last id of a set", of(vec![set(vec![id(CLASSES), id(77)])])),
        refused(24, "id 77 before a byte in the next set", of(vec![strsets::set(77), cut()])),
    ]
}
