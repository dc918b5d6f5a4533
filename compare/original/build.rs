// Copies the original's files out of $TONO_SRC; without it, from beside this repository. They stay as
// they are, but that render/seq.rs gets one line at its end, which makes the shim a part of that
// module. A second copy of render/seq.rs differs from it in one statement: the five pairs of `organ_note`
// are replaced by those that a voice sets. The build stops where they do not stand there, word for word. Of files that lean on others or on crates that are not there, items are taken by their text:
// `adsr` of render/mod.rs, the tempo map of dsl/mod.rs, and `Beat` of units.rs.
use std::env;
use std::fs;
use std::path::{Path, PathBuf};

const DEFAULT_SOURCE: &str = "../../../shared/docs/src";
const FILES: [&str; 5] = ["det", "dsp", "render/kit", "render/osc", "render/seq"];
/// Where items go, the file that has them, and how each of them starts.
const PARTS: [(&str, &str, &[&str]); 3] = [
    ("adsr", "render/mod", &["pub(super) fn adsr("]),
    (
        "tempo",
        "dsl/mod",
        &[
            "pub struct TempoPoint {",
            "pub fn tempo_map_seconds_at(",
            "pub fn tempo_map_bpm_at(",
        ],
    ),
    (
        "units",
        "units",
        &[
            "pub struct Beat {",
            "impl Beat {",
            "fn checked(",
            "impl Ord for Beat {",
            "impl PartialOrd for Beat {",
            "pub enum BeatError {",
        ],
    ),
];
/// `organ_note`'s own pairs, as they stand in render/seq.rs, and what stands there in the second copy.
const PAIRS: &str = "    const BARS: [(f32, f32); 5] = [
        (1.0, 0.45),
        (2.0, 1.0),
        (4.0, 0.45),
        (6.0, 0.3),
        (8.0, 0.22),
    ];
";
const SET_PAIRS: &str = "    #[allow(non_snake_case)]
    let BARS: [(f32, f32); 5] = crate::voice::pairs();
";
/// Structs are copied as in the source; what they are to serde is left out.
const DERIVED: &str = "#[derive(Clone, Copy, PartialEq)]\n";

fn main() {
    println!("cargo:rerun-if-env-changed=TONO_SRC");
    let own = PathBuf::from(env::var_os("CARGO_MANIFEST_DIR").expect("cargo sets it"));
    let source = match env::var_os("TONO_SRC") {
        Some(folder) => PathBuf::from(folder),
        None => own.join(DEFAULT_SOURCE),
    };
    let source = source.join("crates/tono-core/src");
    let out = PathBuf::from(env::var_os("OUT_DIR").expect("cargo sets it"));
    for file in FILES {
        let mut text = read(&source.join(format!("{file}.rs.txt")));
        if file == "render/seq" {
            let shim = own.join("src/shim.rs");
            text += &format!("\n#[path = {shim:?}]\npub mod shim;\n");
            put(&out, "render_seq_bars", &with_set_pairs(&text));
        }
        let name = file.replace('/', "_");
        put(&out, &name, &text);
    }
    for (part, file, items) in PARTS {
        let text = read(&source.join(format!("{file}.rs.txt")));
        let items: String = items.iter().map(|start| item(&text, start)).collect();
        put(&out, part, &items);
    }
    put(&out, "bars", &format!("pub {}", PAIRS.trim_start()));
    put(&out, "files", &declarations(&out));
}

fn put(out: &Path, name: &str, text: &str) {
    fs::write(out.join(format!("{name}.rs")), text).expect("OUT_DIR can be written");
}

/// The text with the pairs of `organ_note` replaced, and nothing else.
fn with_set_pairs(text: &str) -> String {
    let organ = item(text, "fn organ_note(");
    assert_eq!(organ.matches(PAIRS).count(), 1, "organ_note has other pairs");
    assert_eq!(text.matches(PAIRS).count(), 1, "the pairs stand elsewhere too");
    text.replace(PAIRS, SET_PAIRS)
}

/// The modules that are whole files, each at its place in the copy.
fn declarations(out: &Path) -> String {
    let mut text = String::new();
    for name in ["det", "dsp"] {
        let file = out.join(format!("{name}.rs"));
        text += &format!("#[path = {file:?}]\npub mod {name};\n");
    }
    text += "pub mod render {\n    include!(concat!(env!(\"CARGO_MANIFEST_DIR\"), \"/src/render.rs\"));\n";
    for name in ["kit", "osc", "seq", "seq_bars"] {
        let file = out.join(format!("render_{name}.rs"));
        text += &format!("    #[path = {file:?}]\n    pub mod {name};\n");
    }
    text + "}\n"
}

fn read(file: &Path) -> String {
    println!("cargo:rerun-if-changed={}", file.display());
    match fs::read_to_string(file) {
        Ok(text) => text,
        Err(error) => panic!("{}: {error}; set TONO_SRC", file.display()),
    }
}

/// From the line that starts with `start` up to the closing brace at the left margin.
fn item(text: &str, start: &str) -> String {
    let from = match text.find(&format!("\n{start}")) {
        Some(at) => at + 1,
        None => panic!("no {start}"),
    };
    let rest = &text[from..];
    let end = rest.find("\n}\n").expect("an item ends") + 3;
    let derived = match start.starts_with("pub struct") {
        true => DERIVED,
        false => "",
    };
    derived.to_string() + &rest[..end]
}
