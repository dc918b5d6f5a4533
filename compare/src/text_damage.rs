//! What can go wrong in a text score, each by itself.

use crate::random::Source;
use crate::text::{Kind, Text};
use crate::text_random::odd_value;

pub type OfLines = fn(&mut Text, &mut Source);
pub type OfBytes = fn(&mut Vec<u8>, &mut Source);

/// Of a text that has a line.
pub const LINES: [OfLines; 17] = [
    odd_value,
    odd_value,
    swap_lines,
    drop_line,
    double_line,
    empty_line,
    leading_zeros,
    sign,
    uppercase,
    double_tab,
    trailing_tab,
    carriage_return,
    other_wave,
    other_style,
    drop_field,
    double_field,
    other_letter,
];

pub const BYTES: [OfBytes; 10] = [
    flip_bit,
    replace_byte,
    replace_byte,
    delete_byte,
    insert_byte,
    insert_byte,
    swap_bytes,
    cut,
    no_last_newline,
    splice,
];

/// Bytes that mean something in a text score, and some that don't.
const ALPHABET: &[u8] = b"0123456789abcdef\t\t\n\n\r +-.,xAFGNSEVRgnsev\0\x0b\x7f\x80\xff";

fn some_line(text: &Text, s: &mut Source) -> usize {
    s.below(text.lines.len() as u64) as usize
}

fn swap_lines(text: &mut Text, s: &mut Source) {
    let (a, b) = (some_line(text, s), some_line(text, s));
    text.lines.swap(a, b);
}

fn drop_line(text: &mut Text, s: &mut Source) {
    let at = some_line(text, s);
    text.lines.remove(at);
}

fn double_line(text: &mut Text, s: &mut Source) {
    let (from, to) = (some_line(text, s), some_line(text, s));
    let line = text.lines[from].clone();
    text.lines.insert(to, line);
}

fn empty_line(text: &mut Text, s: &mut Source) {
    let at = s.below(text.lines.len() as u64 + 1) as usize;
    text.lines.insert(at, vec![Vec::new()]);
}

/// Puts bytes before a field's own.
fn before_field(text: &mut Text, s: &mut Source, bytes: &[u8]) {
    if let Some((line, field, _)) = text.some_field(s) {
        text.lines[line][field].splice(0..0, bytes.iter().copied());
    }
}

fn leading_zeros(text: &mut Text, s: &mut Source) {
    let zeros = 1 + s.below(2) as usize * s.below(30) as usize;
    before_field(text, s, &vec![b'0'; zeros]);
}

fn sign(text: &mut Text, s: &mut Source) {
    let sign = s.pick(b"+- ");
    before_field(text, s, &[sign]);
}

/// A field of hexadecimal digits, which may have none above 9.
fn uppercase(text: &mut Text, s: &mut Source) {
    let some = (0..8).find_map(|_| text.some_field(s).filter(|f| f.2 == Kind::Hex));
    if let Some((line, field, _)) = some {
        text.lines[line][field].make_ascii_uppercase();
    }
}

fn double_tab(text: &mut Text, s: &mut Source) {
    if let Some((line, field, _)) = text.some_field(s) {
        text.lines[line].insert(field, Vec::new());
    }
}

fn trailing_tab(text: &mut Text, s: &mut Source) {
    let at = some_line(text, s);
    text.lines[at].push(Vec::new());
}

/// At the end of a line, or of all.
fn carriage_return(text: &mut Text, s: &mut Source) {
    let (at, all) = (some_line(text, s), s.below(2) == 0);
    for (i, line) in text.lines.iter_mut().enumerate() {
        match line.last_mut() {
            Some(last) if all || i == at => last.push(b'\r'),
            _ => (),
        }
    }
}

/// With the knobs of the wave before.
fn other_wave(text: &mut Text, s: &mut Source) {
    let wave = match s.below(3) {
        0 => s.pick(&[16, 18, 19, 255, 256, 65_552, u32::MAX]),
        _ => s.below(20) as u32,
    };
    if text.lines.get(3).is_some_and(|line| line.len() > 1) {
        text.set(3, 1, &wave.to_string());
    }
}

/// Of a drum kit: a style that is none, or not written as a number is, or beside a second one.
pub fn other_style(text: &mut Text, s: &mut Source) {
    let kit: &[u8] = b"16";
    match text.lines.get_mut(3) {
        Some(line) if line.len() == 4 && line[1] == kit => match s.below(4) {
            0 => line.push(vec![s.pick(b"01234")]),
            _ => line[3] = s.pick(&STYLES).into(),
        },
        _ => other_wave(text, s),
    }
}

const STYLES: [&[u8]; 18] = [
    b"0",
    b"1",
    b"2",
    b"3",
    b"4",
    b"5",
    b"10",
    b"00",
    b"01",
    b"03",
    b"+1",
    b"-0",
    b"",
    b" 1",
    b"3 ",
    b"256",
    b"4294967296",
    b"00000000",
];

fn drop_field(text: &mut Text, s: &mut Source) {
    let line = some_line(text, s);
    if !text.lines[line].is_empty() {
        let field = s.below(text.lines[line].len() as u64) as usize;
        text.lines[line].remove(field);
    }
}

/// Of the V line, a knob too many.
fn double_field(text: &mut Text, s: &mut Source) {
    if let Some((line, field, _)) = text.some_field(s) {
        let value = text.lines[line][field].clone();
        text.lines[line].insert(field, value);
    }
}

fn other_letter(text: &mut Text, s: &mut Source) {
    let (line, letter) = (some_line(text, s), s.pick(b"SGEVNFRsgevn0X "));
    if let Some(first) = text.lines[line].first_mut() {
        match s.below(3) {
            0 => first.push(letter),
            _ => *first = vec![letter],
        }
    }
}

fn place(bytes: &[u8], s: &mut Source) -> usize {
    s.below(bytes.len() as u64) as usize
}

fn flip_bit(bytes: &mut Vec<u8>, s: &mut Source) {
    if !bytes.is_empty() {
        let at = place(bytes, s);
        bytes[at] ^= 1 << s.below(8);
    }
}

pub fn replace_byte(bytes: &mut Vec<u8>, s: &mut Source) {
    if !bytes.is_empty() {
        let at = place(bytes, s);
        bytes[at] = s.pick(ALPHABET);
    }
}

fn delete_byte(bytes: &mut Vec<u8>, s: &mut Source) {
    if !bytes.is_empty() {
        let at = place(bytes, s);
        bytes.remove(at);
    }
}

fn insert_byte(bytes: &mut Vec<u8>, s: &mut Source) {
    let at = s.below(bytes.len() as u64 + 1) as usize;
    bytes.insert(at, s.pick(ALPHABET));
}

fn swap_bytes(bytes: &mut Vec<u8>, s: &mut Source) {
    if bytes.len() > 1 {
        let at = s.below(bytes.len() as u64 - 1) as usize;
        bytes.swap(at, at + 1);
    }
}

/// After any byte; at times there is nothing left.
fn cut(bytes: &mut Vec<u8>, s: &mut Source) {
    let length = match s.below(8) {
        0 => 0,
        _ => s.below(bytes.len() as u64 + 1) as usize,
    };
    bytes.truncate(length);
}

fn no_last_newline(bytes: &mut Vec<u8>, _: &mut Source) {
    bytes.pop();
}

/// A part of the text in the place of another.
fn splice(bytes: &mut Vec<u8>, s: &mut Source) {
    if !bytes.is_empty() {
        let mut ends = [0; 4].map(|_| place(bytes, s));
        ends[..2].sort();
        ends[2..].sort();
        let part = bytes[ends[0]..ends[1]].to_vec();
        bytes.splice(ends[2]..ends[3], part);
    }
}
