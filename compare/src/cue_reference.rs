//! What 02, Card 7, asks of the cue sheet of a text score, with the reference's refusals, places and draws.
//! Nothing here comes from the library. Words in quotes are 02's.

use crate::grid::Grid;
use crate::reference::{score_voice, Tally};
use crate::text_reference::{judged, TextScore};
use tono::dsl::{SeqNote, SeqWave};
use tono::voice::Voice;

/// "Sixty lines make a page"
const PAGE: usize = 60;

/// A sheet, and what a run counts of it.
pub struct Sheet {
    pub bytes: Vec<u8>,
    pub notes: usize,
    pub skipped: usize,
    /// The count after the last note.
    pub reached: u64,
}

/// "Wave names are those of `SeqWave` in lower case."
fn name(wave: SeqWave) -> String {
    format!("{wave:?}").to_lowercase()
}

/// What stands in the columns of a note that is sounded: its start frame, its sounded frames, the count
/// reached before it, and its draws.
type Sounded = (usize, usize, u64, u64);

/// "list place from 0 (4 columns), step (8), start frame (9), sounded frames (9), wave name (10), first draw,
/// the count reached before the note (21) and draws (11), each right-aligned except the name"; "a line feed
/// is added"; "A skipped note shows a dash for start frame and for first draw, and 0 frames and draws."
fn line(place: usize, step: u32, name: &str, sounded: Option<Sounded>) -> String {
    match sounded {
        Some((start, frames, first, draws)) => {
            format!("{place:>4}{step:>8}{start:>9}{frames:>9}{name:<10}{first:>21}{draws:>11}\n")
        }
        None => format!(
            "{place:>4}{step:>8}{:>9}{:>9}{name:<10}{:>21}{:>11}\n",
            '-', 0, '-', 0
        ),
    }
}

/// "Sixty lines make a page, then a form feed (hexadecimal 0C) if more notes follow."
fn pages(lines: &[String]) -> Vec<u8> {
    let pages: Vec<String> = lines.chunks(PAGE).map(|page| page.concat()).collect();
    pages.join("\x0c").into_bytes()
}

fn sheet_of(read: &TextScore, voice: &Voice, grid: &Grid, notes: &[SeqNote]) -> Sheet {
    let call = read.score.call();
    let name = name(voice.wave);
    let (mut reached, mut skipped) = (read.draw, 0);
    let mut lines = Vec::new();
    for (place, note) in notes.iter().enumerate() {
        let draws = call.draws(voice, grid, note) as u64;
        let sounded = grid.place(note);
        skipped += sounded.is_none() as usize;
        let sounded = sounded.map(|frames| (frames.start, frames.len(), reached, draws));
        lines.push(line(place, note.step, &name, sounded));
        reached += draws;
    }
    Sheet {
        bytes: pages(&lines),
        notes: notes.len(),
        skipped,
        reached,
    }
}

/// A text's sheet, or the number that refuses it, but for 34.
pub fn sheet(text: &[u8]) -> Result<Sheet, u32> {
    let read = judged(text).map_err(|(number, _)| number)?;
    let call = read.score.call();
    let voice = score_voice(&call).expect("a V line has a voice");
    let (seed, draw) = (read.seed, read.draw);
    let grid = Grid::of(&call);
    let accepted = Tally { seed, draw }.judged(&call, &voice, &grid)?;
    Ok(sheet_of(&read, &voice, &grid, &accepted.notes))
}

/// "The call hands back the sheet's length in bytes, and the page buffer after it stays. It refuses a page
/// buffer too short for the whole sheet with 34, after 22."
pub fn c_call(sheet: &Result<Sheet, u32>, page: &mut [u8]) -> i64 {
    match sheet {
        Err(number) => -(*number as i64),
        Ok(sheet) => match page.get_mut(..sheet.bytes.len()) {
            Some(start) => {
                start.copy_from_slice(&sheet.bytes);
                sheet.bytes.len() as i64
            }
            None => -34,
        },
    }
}
