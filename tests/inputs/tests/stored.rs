//! The stored input of the program `answer` meets what it is there for, and the stored output is the reader's.

use inputs::Outcome;
use reader::Answer;
use std::fs;
use std::path::Path;

/// A file of the program's crate.
fn stored(name: &str) -> Vec<u8> {
    fs::read(Path::new(env!("CARGO_MANIFEST_DIR")).join("../../crates/answer").join(name)).unwrap()
}

/// Answers with their bytes.
type Answers = Vec<(Answer, Vec<u8>)>;

/// The answers to each message: only one that hands back place 0 is the last of its message.
fn by_message(answers: Answers) -> Vec<Answers> {
    answers.chunk_by(|(answer, _), _| answer.next_place > 0).map(<[_]>::to_vec).collect()
}

fn outcome(answers: &Answers) -> Outcome {
    let kinds: Vec<(u32, u32)> = answers.iter().map(|(answer, _)| (answer.kind, answer.refusal)).collect();
    match kinds[..] {
        [(reader::SKIPPED, 0)] => Outcome::Skipped,
        [(reader::DONE, 0)] => Outcome::Done,
        [(reader::DONE, 0), (reader::DONE, 0)] => Outcome::Dumped,
        [(reader::REFUSED, number)] => Outcome::Refused(number),
        _ => panic!("no answers of a run: {kinds:?}"),
    }
}

#[test]
fn stored_input_is_the_one_made_here() {
    assert!(stored("stdin") == inputs::stored(), "see inputs/README.md for how it is written");
}

#[test]
fn stored_output_is_the_readers() {
    assert!(stored("stdout") == reader::run(&stored("stdin")), "see inputs/README.md for how it is written");
}

#[test]
fn every_message_meets_what_it_is_there_for() {
    let messages = inputs::messages();
    let answers = by_message(reader::answers(&stored("stdin")));
    assert_eq!(answers.len(), messages.len());
    for (message, answers) in messages.iter().zip(&answers) {
        assert_eq!(outcome(answers), message.outcome, "{}", message.what);
    }
    assert_eq!(answers.last().unwrap().last().unwrap().0.next, stored("stdin").len() as u64);
}

/// Nor 25: both lists of 40 names are far from too long.
#[test]
fn every_refusal_from_5_to_24_but_9_is_met() {
    let met: Vec<u32> = reader::answers(&stored("stdin")).iter().map(|(answer, _)| answer.refusal).collect();
    for number in (5..=24).filter(|number| *number != 9) {
        assert!(met.contains(&number), "refusal {number}");
    }
}

/// The program's sender is admin: only another sender can meet 9, by the same datagram.
#[test]
fn a_sender_who_is_not_admin_meets_9() {
    let met =
        |admin| reader::answers_to(admin, &stored("stdin")).iter().filter(|(answer, _)| answer.refusal == 9).count();
    assert_eq!(met(1), 0);
    assert!(met(0) > 10);
}

/// The type of the attribute behind SIZE in a reply with a set: BITS (3) if verbose, VALUE (4) if compact.
fn form(reply: &[u8]) -> Option<u8> {
    (reply.len() > 58 && reply[4..6] == [25, 0] && !tells_names(reply)).then(|| reply[58])
}

/// Whether it is a reply to STRSET_GET.
fn tells_names(reply: &[u8]) -> bool {
    reply.len() > 16 && reply[4..6] == [25, 0] && reply[16] == 1
}

/// Whether something, which can only be an ACK, stands behind the first message of an answer.
fn acked(bytes: &[u8]) -> bool {
    bytes.len() > u32::from_le_bytes(bytes[..4].try_into().unwrap()) as usize
}

#[test]
fn both_reply_forms_are_met_with_and_without_ack() {
    let answers = reader::answers(&stored("stdin"));
    for form_number in [3, 4] {
        let replies: Vec<_> = answers.iter().filter(|(_, bytes)| form(bytes) == Some(form_number)).collect();
        assert!(replies.iter().any(|(_, bytes)| acked(bytes)));
        assert!(replies.iter().any(|(_, bytes)| !acked(bytes)));
    }
    let sets: Vec<usize> = answers
        .iter()
        .filter(|(answer, bytes)| answer.kind == reader::DONE && form(bytes).is_none())
        .map(|(_, bytes)| bytes.len())
        .collect();
    assert!(sets.contains(&0) && sets.contains(&36));
}

/// The ids of a reply's lists, by the lengths of its nests.
fn ids_told(reply: &[u8]) -> Vec<u8> {
    let length = |at: usize| usize::from(u16::from_le_bytes([reply[at], reply[at + 1]]));
    let list = if reply[22] == 1 { 20 + length(20) } else { 20 };
    let mut at = list + 4;
    let mut ids = Vec::new();
    while at < list + length(list) {
        ids.push(reply[at + 8]);
        at += length(at);
    }
    ids
}

/// The counts alone of both lists take 40 bytes, 40 names at least 800.
#[test]
fn name_lists_are_met_with_and_without_a_port_strings_and_ack() {
    let answers = reader::answers(&stored("stdin"));
    let replies = answers.iter().map(|(_, bytes)| bytes).filter(|bytes| tells_names(bytes));
    let met: Vec<_> = replies.map(|reply| (ids_told(reply), reply[22] == 1, reply.len() > 800, acked(reply))).collect();
    let expected: [(&[u8], bool, bool, bool); 10] = [
        (&[10], false, true, false),
        (&[10], false, true, true),
        (&[2], true, true, false),
        (&[2], true, true, true),
        (&[2, 10], true, true, false),
        (&[10, 2], true, true, true),
        (&[10, 2], true, true, false),
        (&[2, 10], true, false, true),
        (&[10], false, false, false),
        (&[10], true, true, false),
    ];
    for (ids, port, strings, ack) in expected {
        assert!(met.contains(&(ids.to_vec(), port, strings, ack)), "{ids:?} {port} {strings} {ack}");
    }
}

/// Each dump's command, whether it asks for an ACK, and its two messages.
fn dumps() -> Vec<(u8, bool, Vec<u8>, Vec<u8>)> {
    let answers = by_message(reader::answers(&stored("stdin")));
    let both = inputs::messages().into_iter().zip(answers).filter(|(_, answers)| answers.len() == 2);
    both.map(|(message, answers)| {
        let [reply, done] = [0, 1].map(|place| answers[place].1.clone());
        (message.request.generic[0], message.request.flags & 4 != 0, reply, done)
    })
    .collect()
}

#[test]
fn dumps_are_met_in_both_forms_of_both_sets_and_done_follows() {
    let mut met = Vec::new();
    for (command, ack, reply, done) in dumps() {
        assert_eq!((&reply[6..8], &done[4..8]), (&[2, 0][..], &[3, 0, 2, 0][..]));
        assert_eq!((done.len(), &done[8..16]), (20, &reply[8..16]));
        met.push((command, form(&reply), ack));
    }
    for dump in [(13, Some(4), false), (13, Some(3), true), (7, Some(3), false), (7, Some(4), true)] {
        assert!(met.contains(&dump), "{dump:?} of {met:?}");
    }
}

#[test]
fn a_change_between_two_dumps_is_seen() {
    let shown: Vec<_> =
        dumps().into_iter().filter(|(command, _, reply, _)| (*command, form(reply)) == (13, Some(4))).collect();
    assert!(shown.len() == 2 && shown[0].2[60..] != shown[1].2[60..]);
}

#[test]
fn other_inputs_end_as_they_are_called() {
    let written = |name: &str| {
        let (_, input) = inputs::ends().into_iter().find(|(known, _)| *known == name).unwrap();
        (input.len(), reader::answers(&input).len())
    };
    for name in ["empty", "too-long", "far-too-long"] {
        assert_eq!(written(name).1, 0, "{name}");
    }
    for name in ["cut", "length-15", "length-past-the-end", "last-padding-absent"] {
        assert_eq!(written(name).1, 1, "{name}");
    }
    assert_eq!(written("longest"), (32_768, 1023));
    assert_eq!(written("dump-cut"), (39, 2));
}
