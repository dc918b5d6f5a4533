//! The replay files of crates/cue_vectors. A line `sheet` gives the length of a text score, the length of a
//! page and a name; then the text's bytes stand.

use crate::cue_reference::{c_call, sheet};
use crate::text_cases::{others, scope, sheets, waves, Case};
use std::fs;
use std::io;
use std::path::Path;

const FOLDER: &str = concat!(env!("CARGO_MANIFEST_DIR"), "/../crates/cue_vectors");
/// What the replay has in each byte of a page before a call.
const BYTE_BEFORE: u8 = b'.';

#[derive(Default)]
struct Replay {
    stdin: Vec<u8>,
    stdout: Vec<u8>,
    cases: usize,
}

impl Replay {
    /// The answer is the C call's; then the whole page stands.
    fn put(&mut self, case: &Case, page: usize) {
        let (name, text) = (&case.name, &case.text);
        let mut page = vec![BYTE_BEFORE; page];
        let line = format!("sheet {:x} {:x} {name}", text.len(), page.len());
        let answer = c_call(&sheet(text), &mut page);
        self.stdin.extend(format!("{line}\n").bytes());
        self.stdin.extend(text);
        self.stdout
            .extend(format!("{line} {answer:016x}\n").bytes());
        self.stdout.extend(page);
        self.stdout.push(b'\n');
        self.cases += 1;
    }

    /// With a page that is longer than the sheet by a few bytes.
    fn longer(&mut self, case: &Case) {
        let length = sheet(&case.text).map_or(0, |sheet| sheet.bytes.len());
        self.put(case, length + 5);
    }

    /// With pages that the sheet just fits, and just doesn't.
    fn pages(&mut self, case: &Case) {
        let length = sheet(&case.text).map_or(0, |sheet| sheet.bytes.len());
        self.put(case, length);
        if length > 0 {
            self.put(case, length - 1);
            self.put(case, 0);
        }
    }
}

/// Whether a case's text is short, so that the files stay small.
fn is_short(case: &Case) -> bool {
    case.text.len() < 1000
}

/// Writes both files.
pub fn run() -> io::Result<()> {
    let mut replay = Replay::default();
    for case in [vec![scope()], waves(), sheets()].concat() {
        replay.longer(&case);
        replay.pages(&case);
    }
    for case in others().iter().filter(|case| is_short(case)) {
        replay.longer(case);
    }
    let folder = Path::new(FOLDER);
    fs::create_dir_all(folder)?;
    fs::write(folder.join("stdin"), &replay.stdin)?;
    fs::write(folder.join("stdout"), &replay.stdout)?;
    println!(
        "{} calls of cue sheets, {} bytes",
        replay.cases,
        replay.stdin.len()
    );
    Ok(())
}
