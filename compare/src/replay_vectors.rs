//! The replay files of crates/replay. A line `text` or `show` gives the length of a text score, the
//! length of a reply and a name; then the text's bytes stand.

use crate::text_cases::{others, scope, waves, Case};
use crate::text_reference::{c_call, listing};
use std::fs;
use std::io;
use std::path::Path;

const FOLDER: &str = concat!(env!("CARGO_MANIFEST_DIR"), "/../crates/replay");
/// What the replay has in each byte of a reply before a call.
const BYTE_BEFORE: u8 = b'.';

#[derive(Default)]
struct Replay {
    stdin: Vec<u8>,
    stdout: Vec<u8>,
    cases: usize,
}

/// FNV-1a of 64 bits.
fn hash(bytes: &[u8]) -> u64 {
    let step = |h: u64, &b: &u8| (h ^ b as u64).wrapping_mul(0x0000_0100_0000_01b3);
    bytes.iter().fold(0xcbf2_9ce4_8422_2325, step)
}

impl Replay {
    /// The answer is the C call's, and the hash of the whole reply; then the reply, if it is shown.
    fn put(&mut self, command: &str, case: &Case, reply: usize) {
        let (name, text) = (&case.name, &case.text);
        let mut reply = vec![BYTE_BEFORE; reply];
        let line = format!("{command} {:x} {:x} {name}", text.len(), reply.len());
        let answer = c_call(&listing(text).bytes, &mut reply);
        self.stdin.extend(format!("{line}\n").bytes());
        self.stdin.extend(text);
        let answer = format!("{line} {answer:016x} {:016x}\n", hash(&reply));
        self.stdout.extend(answer.bytes());
        if command == "show" {
            self.stdout.extend(reply);
            self.stdout.push(b'\n');
        }
        self.cases += 1;
    }

    /// With a reply that is longer than the listing by a few bytes.
    fn longer(&mut self, command: &str, case: &Case) {
        let length = listing(&case.text).bytes.len();
        self.put(command, case, length + 5);
    }

    /// Refusals are shown, so that each can be read.
    fn other(&mut self, case: &Case) {
        let command = match listing(&case.text).number {
            0 => "text",
            _ => "show",
        };
        self.longer(command, case);
    }

    /// With replies that the listing just fits, and just doesn't.
    fn replies(&mut self, case: &Case) {
        let length = listing(&case.text).bytes.len();
        for reply in [length, length + 1, length - 1, 1, 0] {
            self.put("text", case, reply);
        }
    }
}

/// Writes both files.
pub fn run() -> io::Result<()> {
    let mut replay = Replay::default();
    let shown = [vec![scope()], waves()].concat();
    for case in &shown {
        replay.longer("show", case);
        replay.replies(case);
    }
    for case in others() {
        replay.other(&case);
    }
    let folder = Path::new(FOLDER);
    fs::create_dir_all(folder)?;
    fs::write(folder.join("stdin"), &replay.stdin)?;
    fs::write(folder.join("stdout"), &replay.stdout)?;
    println!("{} text calls, {} bytes", replay.cases, replay.stdin.len());
    Ok(())
}
