//! Calls that search for names: in lists as drivers have them, and in lists whose names are much alike.

use crate::call::Call;
use crate::lent::Lent;
use crate::names;
use crate::requests::{self, Told};

/// By more and more names over longer and longer lists; then by index and name, among names alike, and many at once.
pub fn calls() -> Vec<Call> {
    const ENTRIES: [usize; 6] = [1, 2, 4, 8, 16, 40];
    const BITS: [usize; 3] = [40, 128, 512];
    let driver_like = |told, entries, bits| set(told, entries, "driver-like", &names::driver_like(bits));
    let by_name = BITS.into_iter().flat_map(|bits| ENTRIES.map(|entries| driver_like(Told::Name, entries, bits)));
    let by_place = BITS
        .into_iter()
        .flat_map(|bits| [("middle", bits / 2), ("last", bits - 1)].map(|(place, bit)| by_one(place, bit, bits)));
    let by_both = BITS.map(|bits| driver_like(Told::IndexAndName, 40, bits));
    let alike = [
        set(Told::Name, 40, "numbered", &names::numbered(512)),
        set(Told::Name, 40, "of one length and end", &names::same_end(512)),
    ];
    let many = [40, 512].map(|bits| normalise(512, "driver-like", &names::driver_like(bits)));
    by_name.chain(by_place).chain(by_both).chain(alike).chain(many).collect()
}

fn set(told: Told, entries: usize, kind: &str, names: &[String]) -> Call {
    let bits = if told == Told::Name { "names" } else { "BITs with index and name" };
    let list = requests::list(told, entries, names);
    Call::set(&format!("SET by {entries} {bits}, {kind}"), 1, names.len(), &list).over(Lent::of_names(names))
}

/// By the one name at a place of the list: without tables the search passes every entry before it.
fn by_one(place: &str, bit: usize, bits: usize) -> Call {
    let names = names::driver_like(bits);
    let list = requests::one(bit, &names);
    Call::set(&format!("SET by the {place} name, driver-like"), 1, bits, &list).over(Lent::of_names(&names))
}

fn normalise(entries: usize, kind: &str, names: &[String]) -> Call {
    let list = requests::list(Told::Name, entries, names);
    Call::contents(&format!("normalise {entries} names, {kind}"), names.len(), list).over(Lent::of_names(names))
}
