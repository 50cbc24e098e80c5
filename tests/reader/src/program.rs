//! The program (document 01, "What the box reads and writes"): standard input as one datagram for one fixed box.

use super::handler::{handle, Answer, END};
use super::page::ANSWER_PAGE;

/// The box of document 01's whole reply, with an empty debug set.
struct Fixed {
    roll: [u8; 21],
    debug_names: [u8; 40 * 32],
    flag_names: [u8; 40 * 32],
    settings: [u8; 16],
}

impl Fixed {
    fn new() -> Self {
        let mut roll = [0; 21];
        roll[..8].copy_from_slice(b"\x01\x03\0\0\0sw0");
        let mut flag_names = [0; 40 * 32];
        flag_names[3 * 32..3 * 32 + 4].copy_from_slice(b"lldp");
        let mut settings = [0; 16];
        settings[8] = 1;
        settings[12] = 2;
        Fixed { roll, debug_names: [0; 40 * 32], flag_names, settings }
    }
}

/// All answers to a datagram in order, up to the end or a refusal 1 to 4, each with its bytes; a dump has one for each of
/// its messages. The program's sender is admin.
pub fn answers(datagram: &[u8]) -> Vec<(Answer, Vec<u8>)> {
    answers_to(1, datagram)
}

/// The same to a sender who is admin (1) or not (0).
pub fn answers_to(admin: u32, datagram: &[u8]) -> Vec<(Answer, Vec<u8>)> {
    let mut fixed = Fixed::new();
    let mut page = vec![0; ANSWER_PAGE];
    let mut answers = Vec::new();
    let (mut position, mut place) = (0, 0);
    loop {
        let (roll, debug, flags) = (&fixed.roll, &fixed.debug_names, &fixed.flag_names);
        let answer = handle(25, admin, roll, debug, flags, &mut fixed.settings, datagram, position, place, &mut page);
        if answer.kind == END || (1..=4).contains(&answer.refusal) {
            return answers;
        }
        answers.push((answer, page[..answer.written as usize].to_vec()));
        (position, place) = (answer.next, answer.next_place);
    }
}

/// What the program writes.
pub fn run(datagram: &[u8]) -> Vec<u8> {
    answers(datagram).into_iter().flat_map(|(_, bytes)| bytes).collect()
}
