//! The ways in which a run ends: at the datagram's end, or by 3 or 4. 1 and 2 are not met: box and page are the program's own.

use super::making::*;
use cases::requests::Request;

/// The longest datagram that is answered.
const LONGEST: usize = 32_768;

fn get() -> Request {
    request(PRIVFLAGS_GET, 0, vec![port()])
}

/// All 40 flags set by 64 bytes, then GETs of 32 bytes up to the longest datagram.
fn longest() -> Vec<u8> {
    let all = set(PRIVFLAGS_SET, 0, vec![nomask(), size(40), value(&[0xFFFF_FFFF, 0xFF, 0])]);
    let requests: Vec<Request> = std::iter::once(all).chain((2..LONGEST / 32).map(|_| get())).collect();
    datagram(requests.iter())
}

/// One whole message, then another with this stated length.
fn misstated(stated: u32) -> Vec<u8> {
    datagram([get(), Request { stated: Some(stated), ..get() }, get()].iter())
}

pub fn ends() -> Vec<(&'static str, Vec<u8>)> {
    let whole = datagram([get()].iter());
    vec![
        ("empty", Vec::new()),
        ("longest", longest()),
        ("too-long", [longest(), vec![0]].concat()),
        ("far-too-long", whole.repeat(4096)),
        ("cut", [&whole[..], &whole[..15]].concat()),
        ("dump-cut", [datagram([dump(PRIVFLAGS_GET, 0, vec![])].iter()), vec![0; 15]].concat()),
        ("length-15", misstated(15)),
        ("length-past-the-end", misstated(65)),
        ("last-padding-absent", datagram([Request { stray: vec![0], ..get() }].iter())),
    ]
}
