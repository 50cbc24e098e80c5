//! One case from a seed and a number.

use super::boxes::{self, BoxBytes, Model};
use super::case::{Case, CheckBoxCase, FindCase, HandleCase, NormaliseCase};
use super::datagrams;
use super::requests::Request;
use super::rng::Rng;
use super::tree::write_all;
use super::{alike, bad_box, bad_message, bad_parts, bad_tree, bad_words, bitsets, places, wanted};

/// Shortest answer page of the handler.
const ANSWER_PAGE: usize = 32_768;
/// Shortest page of the normaliser.
const FORM_PAGE: usize = 144;
/// Longest contents of the normaliser.
const LONGEST: usize = 32_768;

/// The case with this number of a seed.
pub fn case(seed: u64, number: u64) -> Case {
    let mut rng = Rng::new(seed, number);
    match rng.below(1000) {
        0..150 => Case::Normalise(normalise(&mut rng)),
        150..250 => Case::CheckBox(check_box(&mut rng)),
        250..310 => Case::Find(find(&mut rng)),
        _ => Case::Handle(handle(&mut rng)),
    }
}

/// How often a case is damaged.
fn damages(rng: &mut Rng) -> usize {
    rng.weighted(&[(30, 0), (42, 1), (18, 2), (10, 3)])
}

/// What a damage of a handler's case is done to.
#[derive(Clone, Copy)]
enum Part {
    Tree,
    Words,
    Message,
    Admin,
    Box,
    Page,
    Datagram,
}

const PARTS: [(usize, Part); 7] = [
    (40, Part::Tree),
    (48, Part::Words),
    (14, Part::Message),
    (3, Part::Admin),
    (7, Part::Box),
    (2, Part::Page),
    (10, Part::Datagram),
];

/// A box and a request for it.
fn with(rng: &mut Rng, box_of: fn(&mut Rng) -> Model, ask: fn(&mut Rng, &Model) -> Request) -> (Model, Request) {
    let model = box_of(rng);
    let request = ask(rng, &model);
    (model, request)
}

/// A box, a request for it and a place.
fn asked(rng: &mut Rng) -> (Model, Request, u64) {
    let share = rng.below(1000);
    let (model, request) = match share {
        0..120 => with(rng, Model::of_dump, Request::dump),
        120..232 => with(rng, Model::new, Request::names),
        232..249 => with(rng, Model::of_long_lists, Request::both_names),
        _ => with(rng, Model::new, Request::new),
    };
    let place = if share < 120 { places::of_dump } else { places::of_other };
    let place = place(rng, model.ports.len());
    (model, request, place)
}

fn handle(rng: &mut Rng) -> HandleCase {
    let (model, mut request, place) = asked(rng);
    let mut given = model.lend(rng);
    let parts: Vec<Part> = (0..damages(rng)).map(|_| rng.weighted(&PARTS)).collect();
    let (mut page, mut late) = (long_page(rng), 0);
    for part in parts {
        match part {
            Part::Tree => bad_tree::damage(rng, &mut request.attributes),
            Part::Words => bad_words::damage(rng, &mut request, &model),
            Part::Message => bad_message::damage(rng, &mut request),
            Part::Admin => given.admin = 0,
            Part::Box => bad_box::damage(rng, &mut given, &model),
            Part::Page => page = short_page(rng),
            Part::Datagram => late += 1,
        }
    }
    let mut datagram = datagrams::around(rng, &request.write(), &model);
    for _ in 0..late {
        datagrams::damage(rng, &mut datagram);
    }
    call(given, datagram, place, contents_of_page(rng, page))
}

fn call(given: BoxBytes, datagram: datagrams::Datagram, place: u64, page: Vec<u8>) -> HandleCase {
    let [debug_names, flag_names] = given.lists;
    HandleCase {
        family: given.family,
        admin: given.admin,
        roll: given.roll,
        debug_names,
        flag_names,
        settings: given.settings,
        datagram: datagram.bytes,
        position: datagram.position,
        place,
        page,
    }
}

fn long_page(rng: &mut Rng) -> usize {
    ANSWER_PAGE + if rng.per_mille(100) { rng.within(1, 40) } else { 0 }
}

fn short_page(rng: &mut Rng) -> usize {
    rng.pick(&[ANSWER_PAGE - 1, ANSWER_PAGE - 1, ANSWER_PAGE - 4, 24_684, 144, 36, 1, 0])
}

/// A page's bytes before the call: a pattern that no answer leaves by chance.
fn contents_of_page(rng: &mut Rng, length: usize) -> Vec<u8> {
    let pattern = rng.bytes(61);
    let mut page = Vec::with_capacity(length + pattern.len());
    while page.len() < length {
        page.extend(&pattern);
    }
    page.truncate(length);
    page
}

fn normalise(rng: &mut Rng) -> NormaliseCase {
    let bits = boxes::bits(rng);
    let list = boxes::list(rng, bits);
    let mut names = boxes::list_bytes(&list);
    let mut attributes = bitsets::contents(rng, &list);
    let mut page = FORM_PAGE + rng.pick(&[0, 0, 0, 1, 56]);
    let mut long = false;
    for _ in 0..damages(rng) {
        match rng.below(64) {
            0 | 1 => page = rng.pick(&[FORM_PAGE - 1, FORM_PAGE - 1, 24, 1, 0]),
            2..5 => bad_list(rng, &mut names),
            5 => long = true,
            6..28 => bad_tree::damage(rng, &mut attributes),
            _ => bad_words::damage_bitset(rng, &mut attributes, &list),
        }
    }
    let mut contents = Vec::new();
    write_all(&attributes, &mut contents);
    finish(rng, &mut contents, long);
    NormaliseCase { contents, names, page: contents_of_page(rng, page) }
}

fn check_box(rng: &mut Rng) -> CheckBoxCase {
    let model = Model::of_more_ports(rng);
    let mut given = model.lend(rng);
    given.admin = rng.below(2) as u32;
    for _ in 0..damages(rng) {
        bad_parts::damage(rng, &mut given, &model);
    }
    let BoxBytes { family, admin, roll, lists: [debug_names, flag_names], settings } = given;
    CheckBoxCase { family, admin, roll, debug_names, flag_names, settings }
}

fn find(rng: &mut Rng) -> FindCase {
    let bits = if rng.per_mille(50) { rng.pick(&[300, 511, 512]) } else { boxes::bits(rng) };
    let empty = rng.pick(&[0, 0, 100, 500]);
    let list = if rng.per_mille(700) { alike::list(rng, bits, empty) } else { boxes::list(rng, bits) };
    let name = wanted::name(rng, &list);
    let mut names = boxes::list_bytes(&list);
    match rng.below(1000) {
        0..150 => bad_list(rng, &mut names),
        150..200 => put_entry(&mut names, rng.below(bits), &name),
        _ => {}
    }
    FindCase { names, name }
}

/// Writes a name into an entry, if it has room: it may then stand in the list twice, or be no name.
fn put_entry(names: &mut [u8], bit: usize, name: &[u8]) {
    if name.len() <= 32 {
        names[32 * bit..32 * (bit + 1)].fill(0);
        names[32 * bit..32 * bit + name.len()].copy_from_slice(name);
    }
}

/// A list with too many entries, or broken in another way.
fn bad_list(rng: &mut Rng, names: &mut Vec<u8>) {
    match rng.per_mille(200) {
        true => names.resize(32 * rng.pick(&[513, 514, 1024]), 0),
        false => bad_box::list(rng, names),
    }
}

/// Contents cut, or brought to about the longest length by NOMASK flags before them.
fn finish(rng: &mut Rng, contents: &mut Vec<u8>, long: bool) {
    if long {
        let room = (LONGEST + rng.pick(&[0, 0, 1, 4, 100])).saturating_sub(contents.len());
        contents.splice(..0, [4, 0, 1, 0].repeat(room / 4));
        contents.extend(vec![0; room % 4]);
    } else if rng.per_mille(60) {
        contents.truncate(rng.below(contents.len() + 1));
    }
}
