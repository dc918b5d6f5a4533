//! Damaged text scores for robust/host.c, with what the reference answers. A case is four numbers of 64
//! bits, low byte first: the text's length, the reply's length, the C call's answer, and how many bytes
//! it writes; then the text, and the bytes written.

use crate::random::Source;
use crate::stream::{self, Out};
use crate::text::Text;
use crate::text_random::damaged;
use crate::text_reference::{c_call, listing};
use std::io::{self, Write};

/// As long as the listing, longer, one byte short, shorter, or empty.
fn reply_length(listing: usize, s: &mut Source) -> usize {
    match s.below(8) {
        0..3 => listing,
        3..5 => listing + 1 + s.below(64) as usize,
        5 => listing - 1,
        6 => s.below(listing as u64) as usize,
        _ => 0,
    }
}

fn put(number: u64, out: &mut Out) -> io::Result<()> {
    // other texts than `compare texts` has
    let mut s = Source::new(!number);
    let good = Text::random(&mut s);
    let text = damaged(good, &mut s);
    let asked = listing(&text).bytes;
    let mut reply = vec![0; reply_length(asked.len(), &mut s)];
    let answer = c_call(&asked, &mut reply);
    let written = answer.max(0) as usize;
    for n in [
        text.len() as i64,
        reply.len() as i64,
        answer,
        written as i64,
    ] {
        out.write_all(&n.to_le_bytes())?;
    }
    out.write_all(&text)?;
    out.write_all(&reply[..written])
}

/// Writes `count` cases from number `first` on.
pub fn run(first: u64, count: u64) -> io::Result<()> {
    stream::run("damaged texts", first, count, put)
}
