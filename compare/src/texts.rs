//! Text scores through `tono_play` and by the reference.

use crate::engine::{threads, Count};
use crate::harness::tono_play;
use crate::lent::Lent;
use crate::progress::Progress;
use crate::random::Source;
use crate::text_random::{kit_text, organ_text, text};
use crate::text_reference::{c_call, listing, Listing, MOST_BYTES};
use crate::tried::{self, first_of, Tried};
use std::fs;
use std::path::Path;

/// How many texts are tried where no number is given.
pub const COUNT: u64 = 1_000_000;
const EXAMPLES: &str = concat!(env!("CARGO_MANIFEST_DIR"), "/../examples");

/// A reply's kind and its length.
type Reply = (&'static str, usize);

fn replies(listing: &[u8], s: &mut Source) -> [Reply; 5] {
    let length = listing.len();
    let longer = match s.below(50) {
        0 => 65_536,
        _ => 1 + s.below(64) as usize,
    };
    [
        ("replies longer than the listing", length + longer),
        ("replies as long as the listing", length),
        ("replies one byte short", length - 1),
        (
            "replies shorter by more",
            s.below(length as u64 - 1) as usize,
        ),
        ("empty replies", 0),
    ]
}

/// What of a call's answer and buffers is not as the reference has it.
fn differ(text: &[u8], listing: &[u8], length: usize) -> Option<String> {
    let score = Lent::of(text);
    let mut reply = Lent::<u8>::any(length);
    let mut asked = reply.part().to_vec();
    let answer = tono_play(score.part(), reply.part_mut());
    let asked_answer = c_call(listing, &mut asked);
    first_of(&[
        ("answer", answer != asked_answer),
        ("reply", reply.part() != asked),
        ("bytes beside the reply", !reply.stays_but(length)),
        ("score", !score.stays()),
    ])
}

/// A text with a reply of each kind.
fn try_text(name: &str, text: &[u8], s: &mut Source, tried: &mut Tried) {
    let asked = listing(text);
    let mut differs = None;
    for (kind, length) in replies(&asked.bytes, s) {
        tried.mark(kind);
        let found = differ(text, &asked.bytes, length);
        differs = differs.or(found.map(|what| format!("{name}, {length} bytes of reply: {what}")));
    }
    tried.add(asked.number, differs);
    for (kind, is) in kinds(text, &asked) {
        tried.mark_if(kind, is);
    }
    for (kind, is) in kit_kinds(text, asked.number) {
        tried.mark_if(kind, is);
    }
}

/// Whether an N line stops after its pitch.
fn short_gain(text: &[u8]) -> bool {
    let short = |line: &[u8]| line.starts_with(b"N") && line.split(|&b| b == b'\t').count() == 4;
    text.split(|&b| b == b'\n').any(short)
}

/// Whether the V line is an organ's, with so many numbers after its duty.
fn organ_with(text: &[u8], count: usize) -> bool {
    let is = |line: &[u8]| {
        line.starts_with(b"V\t9\t") && line.split(|&b| b == b'\t').count() == 3 + count
    };
    text.split(|&b| b == b'\n').any(is)
}

/// The fields after the duty of a drum kit's V line.
fn kit_fields(text: &[u8]) -> Option<Vec<&[u8]>> {
    let mut lines = text.split(|&b| b == b'\n');
    let line = lines.find(|line| line.starts_with(b"V\t16\t"))?;
    Some(line.split(|&b| b == b'\t').skip(3).collect())
}

fn kit_kinds(text: &[u8], number: u32) -> [(&'static str, bool); 7] {
    let fields = kit_fields(text);
    let has = |count: usize| fields.as_ref().is_some_and(|f| f.len() == count);
    let style = |style: &[u8]| fields.as_ref().is_some_and(|f| f == &[style]);
    [
        (
            "accepted with a drum kit of style 0",
            number == 0 && style(b"0"),
        ),
        (
            "accepted with a drum kit of style 1",
            number == 0 && style(b"1"),
        ),
        (
            "accepted with a drum kit of style 2",
            number == 0 && style(b"2"),
        ),
        (
            "accepted with a drum kit of style 3",
            number == 0 && style(b"3"),
        ),
        (
            "a drum kit without a style, refused with 15",
            number == 15 && has(0),
        ),
        (
            "a drum kit with two styles, refused with 15",
            number == 15 && has(2),
        ),
        (
            "a drum kit of style 4, refused with 15",
            number == 15 && style(b"4"),
        ),
    ]
}

fn kinds(text: &[u8], asked: &Listing) -> [(&'static str, bool); 11] {
    let (number, bytes) = (asked.number, text.len());
    let frames = || asked.bytes.iter().filter(|&&b| b == b'F').count();
    let notes = || text.windows(2).filter(|w| w == b"\nN").count();
    let nan = || asked.bytes.windows(8).any(|w| w == b"7fc00000");
    [
        (
            "65,536 bytes, refused with 15",
            bytes == MOST_BYTES && number == 15,
        ),
        (
            "65,536 bytes, refused with 16",
            bytes == MOST_BYTES && number == 16,
        ),
        ("65,537 bytes", bytes == MOST_BYTES + 1),
        (
            "accepted with 2,048 frames",
            number == 0 && frames() == 2048,
        ),
        ("accepted with 256 notes", number == 0 && notes() == 256),
        (
            "accepted with an N line that stops after its pitch",
            number == 0 && short_gain(text),
        ),
        ("accepted with a NaN frame", number == 0 && nan()),
        (
            "accepted and at draw 2^64 - 1 after it",
            number == 0 && asked.draw == u64::MAX,
        ),
        (
            "accepted with an organ without drawbars",
            number == 0 && organ_with(text, 0),
        ),
        (
            "accepted with an organ with drawbars",
            number == 0 && organ_with(text, 10),
        ),
        (
            "an organ with nine or eleven numbers, refused with 15",
            number == 15 && (organ_with(text, 9) || organ_with(text, 11)),
        ),
    ]
}

/// The scores of examples/, which are all accepted, and 01's own with the listing that stands there.
fn try_examples(tried: &mut Tried) {
    let mut s = Source::new(0);
    let folder = Path::new(EXAMPLES);
    let read = |name: &str| fs::read(folder.join(name)).expect("examples can be read");
    assert_eq!(listing(&read("scope.score")).bytes, read("scope.listing"));
    for entry in fs::read_dir(folder).expect("examples can be read") {
        let name = entry.expect("the same").file_name();
        let name = name.to_string_lossy();
        if name.ends_with(".score") {
            let text = read(&name);
            assert_eq!(listing(&text).number, 0, "{name} is refused");
            try_text(&name, &text, &mut s, tried);
        }
    }
}

fn share(first: u64, count: u64, text: fn(&mut Source) -> Vec<u8>, progress: &Progress) -> Tried {
    let mut tried = Tried::default();
    if first == 0 {
        try_examples(&mut tried);
    }
    for number in (first..count).step_by(threads()) {
        let mut s = Source::new(number);
        let text = text(&mut s);
        try_text(&format!("text {number}"), &text, &mut s, &mut tried);
        progress.add(1);
    }
    tried
}

/// Compares `count` texts.
pub fn run(count: u64) -> Count {
    tried::run("texts", count, |thread, progress| {
        share(thread, count, text, progress)
    })
}

/// Compares `count` texts of the drum kit.
pub fn run_kit(count: u64) -> Count {
    tried::run("texts of the drum kit", count, |thread, progress| {
        share(thread, count, kit_text, progress)
    })
}

/// Compares `count` texts of the organ.
pub fn run_organ(count: u64) -> Count {
    tried::run("texts of the organ", count, |thread, progress| {
        share(thread, count, organ_text, progress)
    })
}
