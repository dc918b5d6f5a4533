//! Cue sheets of text scores through `tono_cue_sheet` and by the reference.

use crate::cue_reference::{c_call, sheet, Sheet};
use crate::engine::{threads, Count};
use crate::harness::tono_cue_sheet;
use crate::lent::Lent;
use crate::progress::Progress;
use crate::random::Source;
use crate::text_random::{long_text, text};
use crate::tried::{self, first_of, Tried};

/// How many texts are tried where no number is given.
pub const COUNT: u64 = 1_000_000;

/// A page's kind and its length.
type Page = (&'static str, usize);

/// A refused text leaves a page of any length.
fn pages(length: Option<usize>, s: &mut Source) -> Vec<Page> {
    let Some(length) = length else {
        let any = [0, 1, 72, 73, 18_692, s.below(20_000) as usize];
        return vec![("pages of a refused text", s.pick(&any))];
    };
    let longer = match s.below(50) {
        0 => 65_536,
        _ => 1 + s.below(64) as usize,
    };
    let mut pages = vec![
        ("pages longer than the sheet", length + longer),
        ("pages as long as the sheet", length),
    ];
    if length > 0 {
        pages.push(("pages one byte short, refused with 34", length - 1));
        let shorter = s.below(length as u64) as usize;
        pages.push(("pages shorter, refused with 34", shorter));
    }
    pages
}

/// What of a call's answer and buffers is not as the reference has it.
fn differ(text: &[u8], asked: &Result<Sheet, u32>, length: usize) -> Option<String> {
    let score = Lent::of(text);
    let mut page = Lent::<u8>::any(length);
    let mut wanted = page.part().to_vec();
    let answer = tono_cue_sheet(score.part(), page.part_mut());
    let wanted_answer = c_call(asked, &mut wanted);
    first_of(&[
        ("answer", answer != wanted_answer),
        ("page", page.part() != wanted),
        ("bytes beside the page", !page.stays_but(length)),
        ("score", !score.stays()),
    ])
}

fn mark(asked: &Sheet, tried: &mut Tried) {
    for (kind, notes) in [
        ("accepted with no note", 0),
        ("accepted with 60 notes", 60),
        ("accepted with 61 notes", 61),
        ("accepted with 120 notes", 120),
        ("accepted with 121 notes", 121),
        ("accepted with 256 notes", 256),
    ] {
        tried.mark_if(kind, asked.notes == notes);
    }
    tried.mark_if("accepted with a skipped note", asked.skipped > 0);
    tried.mark_if(
        "accepted and at draw 2^64 - 1 after it",
        asked.reached == u64::MAX,
    );
}

/// A text with a page of each kind.
fn try_text(name: &str, text: &[u8], s: &mut Source, tried: &mut Tried) {
    let asked = sheet(text);
    let length = asked.as_ref().ok().map(|sheet| sheet.bytes.len());
    let mut differs = None;
    for (kind, length) in pages(length, s) {
        tried.mark(kind);
        let found = differ(text, &asked, length);
        differs = differs.or(found.map(|what| format!("{name}, {length} bytes of page: {what}")));
    }
    tried.add(asked.as_ref().err().copied().unwrap_or(0), differs);
    if let Ok(sheet) = &asked {
        mark(sheet, tried);
    }
}

fn share(first: u64, count: u64, progress: &Progress) -> Tried {
    let mut tried = Tried::default();
    for number in (first..count).step_by(threads()) {
        let mut s = Source::new(number);
        // some with as many notes as fill a page, and about so many
        let text = match s.below(16) {
            0 => long_text(&mut s),
            _ => text(&mut s),
        };
        try_text(&format!("text {number}"), &text, &mut s, &mut tried);
        progress.add(1);
    }
    tried
}

/// Compares the sheets of `count` texts.
pub fn run(count: u64) -> Count {
    tried::run("cue sheets", count, |thread, progress| {
        share(thread, count, progress)
    })
}
