// Links the proved libraries, which `tools/build` writes, and takes the lines of the original
// that no function of its own gives, by their text and unchanged. Where one is not found the build
// stops. The original's files themselves are the crate `tono`, in original/. An earlier libtono.a that $COMPARE_OLD
// names is linked too, its calls under other names, for the benchmarks.
use std::env;
use std::fs;
use std::path::{Path, PathBuf};
use std::process::Command;

/// The original's sources, below $TONO_SRC; without it, beside this repository.
const DEFAULT_SOURCE: &str = "../../shared/docs/src";

/// What the benchmarks call of an earlier library.
const PLAYERS: [&str; 2] = ["tono_note", "tono_render_seq"];

fn main() {
    let own = env::var("CARGO_MANIFEST_DIR").expect("cargo sets CARGO_MANIFEST_DIR");
    let own = Path::new(&own);
    link(own, "harness");
    link(own, "tono");
    let out = PathBuf::from(env::var_os("OUT_DIR").expect("cargo sets OUT_DIR"));
    println!("cargo:rustc-check-cfg=cfg(old)");
    println!("cargo:rerun-if-env-changed=COMPARE_OLD");
    if let Some(archive) = env::var_os("COMPARE_OLD").filter(|name| !name.is_empty()) {
        link_old(Path::new(&archive), &out);
    }
    println!("cargo:rerun-if-env-changed=TONO_SRC");
    let source = match env::var_os("TONO_SRC") {
        Some(folder) => PathBuf::from(folder),
        None => own.join(DEFAULT_SOURCE),
    };
    let text = |name| read(&source.join("crates/tono-core/src").join(name));
    let dsp = dsp_items(&text("dsp.rs.txt"));
    let seq = seq_items(&text("render/seq.rs.txt"));
    fs::write(out.join("dsp.rs"), dsp).expect("OUT_DIR can be written");
    fs::write(out.join("seq.rs"), seq).expect("OUT_DIR can be written");
}

fn read(file: &Path) -> String {
    println!("cargo:rerun-if-changed={}", file.display());
    match fs::read_to_string(file) {
        Ok(text) => text,
        Err(error) => panic!("{}: {error}; set TONO_SRC", file.display()),
    }
}

fn link(own: &Path, name: &str) {
    let folder = own.join("../target/staticlib");
    let archive = folder.join(format!("lib{name}.a"));
    if !archive.exists() {
        println!(
            "cargo:warning=no {}: run `tools/build lib{name}.a` first",
            archive.display()
        );
    }
    println!("cargo:rustc-link-search=native={}", folder.display());
    println!("cargo:rustc-link-lib=static={name}");
    println!("cargo:rerun-if-changed={}", archive.display());
}

/// Links a copy of the archive in which the players' names begin with `old_` and all other names are its own.
fn link_old(archive: &Path, out: &Path) {
    println!("cargo:rerun-if-changed={}", archive.display());
    let mut objcopy = Command::new("objcopy");
    for name in PLAYERS {
        objcopy.arg(format!("--redefine-sym={name}=old_{name}"));
        objcopy.arg(format!("--keep-global-symbol=old_{name}"));
    }
    let done = objcopy.arg(archive).arg(out.join("libtono_old.a")).status();
    match done {
        Ok(status) if status.success() => {}
        Ok(status) => panic!("objcopy of COMPARE_OLD={}: {status}", archive.display()),
        Err(error) => panic!("objcopy, of binutils, is needed with COMPARE_OLD: {error}"),
    }
    println!("cargo:rustc-link-search=native={}", out.display());
    println!("cargo:rustc-link-lib=static=tono_old");
    println!("cargo:rustc-cfg=old");
}

fn dsp_items(text: &str) -> String {
    let starts = [
        "pub(crate) fn splitmix_mix(",
        "pub struct Rng(",
        "impl Rng {",
        "pub fn layer_stream_key(",
    ];
    let mut out = String::new();
    for name in ["GOLDEN_GAMMA", "FNV_OFFSET", "FNV_PRIME"] {
        out += line(text, &format!("const {name}: u64 ="));
    }
    for start in starts {
        out += item(text, start);
    }
    out
}

/// The groove's functions, and the lines of `render_seq`, `pluck_note` and `piano_note` that the other
/// answers come from, each within a function of its own.
fn seq_items(text: &str) -> String {
    let mut out = String::new();
    for name in [
        "SWING_MAX_STEP_FRACTION: f32",
        "HUMANIZE_TIMING_STEP_FRACTION: f32",
        "HUMANIZE_VELOCITY_FRACTION: f32",
        "HUMANIZE_SEED_SALT: u64",
    ] {
        out += line(text, &format!("const {name} ="));
    }
    for name in ["pitch_identity", "humanize_draws", "groove_note"] {
        out += item(text, &format!("fn {name}("));
    }
    let render = item(text, "fn render_seq(");
    let pluck = item(text, "fn pluck_note(");
    let piano = item(text, "fn piano_note(");
    let srf = line(render, "let srf =");
    out += &format!(
        "fn step_dur(sr: u32, bpm: f32, steps_per_beat: u32) -> f32 {{ {srf} {} step_dur }}\n",
        line(render, "let step_dur =")
    );
    out += &format!(
        "fn note_len(note: &SeqNote, step_dur: f32, n: usize) -> usize {{ {} len }}\n",
        line(render, "let len =")
    );
    out += &format!(
        "fn sounded(n: usize, start: usize, len: usize) -> usize {{ {} avail }}\n",
        line(render, "let avail =")
    );
    out += &format!(
        "fn period(f: &[f32], sr: u32) -> usize {{ {srf} {} period }}\n",
        line(pluck, "let period =")
    );
    out += &format!(
        "fn thumps(i: usize, sr: u32) -> bool {{ {srf} {} {} }}\n",
        line(piano, "let t = i as f32"),
        between(line(piano, "let thump ="), "if ", " {")
    );
    out
}

/// From the line that starts with `start` up to the next closing brace, or semicolon of a one-line item,
/// at the left margin.
fn item<'a>(text: &'a str, start: &str) -> &'a str {
    let from = text
        .find(&format!("\n{start}"))
        .unwrap_or_else(|| panic!("no {start}"))
        + 1;
    let rest = &text[from..];
    let first = rest.find('\n').expect("a line ends") + 1;
    if rest[..first].trim_end().ends_with(';') {
        return &rest[..first];
    }
    let end = rest
        .find("\n}\n")
        .unwrap_or_else(|| panic!("no end of {start}"))
        + 3;
    &rest[..end]
}

/// The one line that has `part`, whole.
fn line<'a>(text: &'a str, part: &str) -> &'a str {
    let mut found = text.split_inclusive('\n').filter(|l| l.contains(part));
    let hit = found
        .next()
        .unwrap_or_else(|| panic!("no line with {part}"));
    assert!(found.next().is_none(), "two lines with {part}");
    hit
}

fn between<'a>(text: &'a str, left: &str, right: &str) -> &'a str {
    let from = text.find(left).unwrap_or_else(|| panic!("no {left}")) + left.len();
    let end = text[from..]
        .find(right)
        .unwrap_or_else(|| panic!("no {right}"));
    &text[from..from + end]
}
