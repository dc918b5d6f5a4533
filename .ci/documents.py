"""Holds what the documents say to the tree. Each case that fails prints a line that names the document, the place and what
does not hold; the last line is 'N passed, M failed'."""
import re
import shutil
import subprocess
import sys
from pathlib import Path
from typing import Dict, Iterator, List, NamedTuple, Set, Tuple

DOCUMENTS = ["README.md", "CHANGELOG.md", *sorted(str(p) for p in Path("docs").glob("*.md"))]
# The documents whose names are looked up: not those that tell of runs and earlier trees, nor the page of an installation,
# whose files are elsewhere.
TOLD = ("CHANGELOG.md", "docs/LANDINGS.md", "docs/PORT.md", "docs/DESIGN-PASS.md", "docs/COMPARISON.md", "docs/PERFORMANCE.md",
        "docs/install.md")
NAMED = [document for document in DOCUMENTS if document not in TOLD]

# Names that the documents cite and that are not this repository's: the original's, Rust's, the C library's, programs'.
# One that no document cites any more is a failure too.
OUTSIDE: Dict[str, Tuple[str, ...]] = {
    "the original": ("default_gain", "render_seq_mapped"),
    "C": ("fmodf", "WAVE_FORMAT_EXTENSIBLE"),
    "Python's packages": ("frombuffer",),
    "programs": ("enscript",),
    "the toolchain": ("using", "rattle-kit-13f"),
}

# Words that stand for a name of the reader's choice.
PLACEHOLDERS = re.compile(r"(^|[/:( ])(X|X_vectors|Y|NAME|FN|NOTION|MODULE|FILE|OUT|IN|LOG|BASE|STEP|FIRST|LAST|NUMBER|VERSION|DATE)\b")
TOKEN = re.compile(r"[\w·′₀₁₂₃₄^-]+")

passed = failed = 0


def expect(name: str, holds: bool, said: str = "") -> bool:
    """One case. Of those that fail the name is printed."""
    global passed, failed
    if holds:
        passed += 1
    else:
        failed += 1
        print(f"docs: {name}: FAILED {said}".rstrip())
    return holds


# ---- the tree

def files(*patterns: str) -> List[Path]:
    return sorted(p for pattern in patterns for p in Path().glob(pattern) if p.is_file())


def words(text: str) -> Set[str]:
    """The names in a text; one with a dash is one name."""
    return {token.strip("-^") for token in TOKEN.findall(text)}


CRATES = re.findall(r"^([a-z0-9_]+)(?: [^:#\n]*)?:", Path("crates.txt").read_text(), re.M)
SOURCES = {p: p.read_text() for p in files("crates/*/src/**/*.rt", "crates/*/specs/**/*.antt", "crates/*/proofs/**/*.antt")}
EDITS = {f"{p.parts[1]}/{p.stem}" for p in files("crates/*/must-fail/*.edit")}


def code_words() -> Set[str]:
    """The names of crates, modules, wrong programs and code, comments left out."""
    found: Set[str] = set(CRATES)
    for path, text in SOURCES.items():
        found |= words(re.sub(r"(?m)(//|(?<!\S)--(?=\s|$)).*$", "", text))
        found.update((path.stem, *path.parts))
    for edit in EDITS:
        found.update(edit.split("/"))
    return found


def file_words(paths: List[Path]) -> Set[str]:
    return set().union(*(words(p.read_text(encoding="utf-8", errors="replace")) for p in paths))


# what a name alone may be: a name of the code, of tono.h, of tono.py or of a replayed text
OWN = code_words() | file_words(files("include/*", "python/**/*.py", "shared-library", "crates/replay/stdin"))
# what a command or an expression may hold: any word
WORDS = OWN | file_words(files("examples/*", "tools/*", ".ci/[!d]*", ".ci/seq/*.[ch]", "compare/**/*.rs", "compare/**/*.c",
                               "compare/*.md", "crates.txt", "play", "wave", "cue-sheet"))
FIRST = re.compile(r"^\s*(?:(?:unfoldable|abbrev|pub|record|data|module|macro) )*([^\s:(){}=,]+)", re.M)


def declared(path: str) -> Set[str]:
    """The names that a file of specs/ or proofs/ declares; of a folder those of its files."""
    found: Set[str] = set()
    for p in (p for p in SOURCES if str(p) == f"crates/{path}.antt" or f"crates/{path}/" in f"{p}"):
        found.update(FIRST.findall(SOURCES[p]))
        found.update(re.findall(r"[({ ;]pub ([^\s:]+) :", SOURCES[p]))
    return found


class Function(NamedTuple):
    of: str  # the type, or ""
    name: str
    public: bool
    asks: bool  # whether it has a requires


HEAD = re.compile(r'^\s*(?:#\[unsafe\(no_mangle\)\]\s*)?(pub(?:\(crate\))? )?(?:extern "C" )?fn (\w+)')


def functions(text: str) -> Iterator[Function]:
    of, lines = "", text.splitlines()
    for at, line in enumerate(lines):
        opened = re.match(r"^impl (\w+)", line)
        of = opened[1] if opened else "" if line == "}" else of
        head = HEAD.match(line)
        if head:
            body = next((k for k in range(at, len(lines)) if lines[k].strip() == "{"), len(lines))
            yield Function(of, head[2], head[1] == "pub ", any(x.lstrip().startswith("requires") for x in lines[at:body]))


def exported(crate: str) -> Dict[str, Function]:
    """The functions and methods that a library hands to the crates above it, by the names that these use."""
    source = {p.stem: text for p, text in SOURCES.items() if p.parts[1] == crate and p.parts[2] == "src"}
    uses = {name: module for module, names in re.findall(r"^pub use (?:crate::)?(\w+)::(\w+|\{[\w,\s]*\});", source["lib"], re.M)
            for name in re.findall(r"\w+", names)}
    types = {name for name in uses if name[0].isupper()}
    types.update(re.findall(r"^pub (?:struct|enum) (\w+)", source["lib"], re.M))
    found: Dict[str, Function] = {}
    for module, text in source.items():
        for f in functions(text):
            own = module == "lib" or uses.get(f.name) == module or f'extern "C" fn {f.name}(' in text
            if f.public and (f.of in types or not f.of and own):
                found[f"{f.of}::{f.name}" if f.of else f.name] = f
    return found


def known(crate: str) -> Set[str]:
    """Functions, types and constants of a crate, public or not."""
    texts = [text for p, text in SOURCES.items() if p.parts[1] == crate and p.parts[2] == "src"]
    return {name for text in texts for name in re.findall(r"\b(?:fn|struct|enum|const|mod) (\w+)", text)}


METHODS = {(f.of, f.name) for p, text in SOURCES.items() if p.suffix == ".rt" for f in functions(text) if f.of}
VARIANTS = {(name, variant) for p, text in SOURCES.items() if p.suffix == ".rt"
            for name, body in re.findall(r"^pub(?:\(crate\))? enum (\w+) \{(.*?)^\}", text, re.M | re.S)
            for variant in re.findall(r"^    (\w+)", body, re.M)}

# ---- names and files


def spans(text: str) -> Iterator[Tuple[int, str]]:
    """What stands in backticks, outside of code blocks: line and span."""
    for number, line in enumerate(text.splitlines(), 1):
        if not line.startswith("    "):
            for span in re.findall(r"`([^`]+)`", line):
                yield number, span


def is_file(span: str) -> bool:
    """Whether a span with a slash is a file or folder of the tree, a module of specs/ or proofs/, or a wrong program."""
    plain = re.sub(r"^\./", "", span).rstrip("/")
    tried = [plain, f"crates/{plain}", f"crates/{plain}.antt", f"crates/*/{plain}", f"crates/*/{plain}.antt"]
    return plain in EDITS or any(any(Path().glob(one)) for one in tried)


def is_member(span: str) -> bool:
    """Whether `a::b` is a function, type or constant of the crate a, or a method or variant of the type a."""
    parts = [re.sub(r"\(.*", "", part) for part in span.split("::")]
    if parts[0] in CRATES:
        return parts[1] in known(parts[0]) and (len(parts) < 3 or is_member("::".join(parts[1:])))
    return (parts[0], parts[1]) in METHODS or (parts[0], parts[1]) in VARIANTS


def unknown(document: str, span: str) -> List[str]:
    """The names of a span that are not in the tree. In READING and DECISIONS a name that stands alone is one of the code."""
    tokens = [token.strip("-^") for token in TOKEN.findall(span)]
    there = OWN if tokens == [span.strip(".")] and document in ("docs/READING.md", "docs/DECISIONS.md") else WORDS
    return [x for x in tokens if len(x) > 2 and not re.fullmatch(r"[0-9a-f]{8,16}|[0-9].*", x) and x not in there]


def names() -> None:
    outside = {name for group in OUTSIDE.values() for name in group}
    cited: Set[str] = set()
    for document in NAMED:
        for line, span in spans(Path(document).read_text()):
            where = f"{document}:{line}: `{span}`"
            if PLACEHOLDERS.search(span) or span.startswith("target/"):
                continue
            if Path(span).exists():
                expect(where, True)
            elif re.fullmatch(r"[\w.*·/-]*/[\w.*·/-]*", span):
                expect(where, is_file(span), "is no file, module or wrong program")
            elif re.fullmatch(r"\w+(::\w+)+(\(\))?", span):
                expect(where, is_member(span), "is nothing of that crate or type")
            else:
                missing = set(unknown(document, span))
                cited |= missing & outside
                expect(where, missing <= outside, f"is not in the tree: {', '.join(sorted(missing - outside))}")
    for name in sorted(outside - cited):
        expect(f"documents.py: `{name}` of OUTSIDE", False, "is cited nowhere, or is in the tree: take it out")


NAME = r"`[^`/ ]+`"
LIST = rf"{NAME}(?:(?:, | and | \.\. ){NAME})*"
FILE = r"`(\w+/(?:specs|proofs)/[\w/]+)`"


def in_their_files() -> None:
    """'`X/specs/Y`: `a`, `b`' and '`a`, `b` of `X/proofs/Y`' name what the file declares."""
    for document in ("docs/READING.md", "docs/DECISIONS.md", "docs/DIFFERENCES.md"):
        for number, line in enumerate(Path(document).read_text().splitlines(), 1):
            found = [(path, listed) for path, listed in re.findall(rf"{FILE}: ({LIST})", line)]
            found += [(path, listed) for listed, path in re.findall(rf"({LIST}),? (?:of|in) {FILE}", line)]
            for path, listed in found:
                for name in re.findall(r"`([^`]+)`", listed):
                    if "::" not in name and Path(f"crates/{path}.antt").exists():
                        expect(f"{document}:{number}: `{name}` in `{path}`", name in declared(path), "is not declared there")


def theorems() -> None:
    """What the proofs call a theorem is public, and READING names it."""
    reading = {span for _, span in spans(Path("docs/READING.md").read_text())}
    for path, text in SOURCES.items():
        for after in re.findall(r"-- THE THEOREM[^\n]*\n(?:\s*--[^\n]*\n)*([^\n]*)", text):
            name = re.match(r"\s*(?:(?:unfoldable|abbrev|pub) )*([^\s:]+)", after)
            found = name[1] if name else after
            if found == "use":  # the head of a file
                continue
            expect(f"{path}: `{found}`", re.match(r"\s*(?:unfoldable |abbrev )?pub ", after) is not None, "is a theorem and not public")
            expect(f"{path}: `{found}`", found in reading, "is a theorem that READING does not name")


# ---- tables and counts

def section(text: str, heading: str) -> str:
    """From a heading to the next one of its rank."""
    rank = heading.split(" ")[0]
    found = re.search(rf"^{re.escape(heading)}.*?(?=^{rank} |\Z)", text, re.M | re.S)
    return found[0] if found else ""


def rows(text: str) -> List[List[str]]:
    """The cells of a table's rows, without its head."""
    lines = [line for line in text.splitlines() if line.startswith("|")]
    return [[cell.strip() for cell in line.strip("|").split(" | ")] for line in lines if not re.match(r"^\|[ -]*-", line)]


def same(name: str, said: Set[str], there: Set[str]) -> None:
    """Two sets of names, one case for each that only one of them has."""
    for one in sorted(said - there):
        expect(f"{name}: `{one}`", False, "is in the document and not in the tree")
    for one in sorted(there - said):
        expect(f"{name}: `{one}`", False, "is in the tree and not in the document")
    expect(name, bool(said), "the table is not found")


def wrong_programs() -> None:
    text = section(Path("docs/READING.md").read_text(), "## Wrong programs")
    said = [name for cells in rows(text) for name in re.findall(r"`([a-z0-9_]+/[a-z0-9_]+)`", " ".join(cells[:2]))]
    same("READING's wrong programs", set(said), EDITS)
    for name in sorted({name for name in said if said.count(name) > 1}):
        expect(f"READING's wrong programs: `{name}`", False, "stands there twice")


def pages() -> None:
    """docs/refusals.md and docs/crates.md are what tools/pages writes."""
    ran = subprocess.run([sys.executable, "tools/pages", "--check"], capture_output=True, text=True, check=False)
    expect("the pages that are generated", ran.returncode == 0, (ran.stdout + ran.stderr).strip())
    text = Path("docs/crates.md").read_text()
    listed = re.findall(r"^\| `([a-z0-9_]+)` \| \S", text, re.M)
    expect("docs/crates.md has every crate, in the order of crates.txt", listed == CRATES)


def public_calls() -> None:
    text = section(Path("docs/DECISIONS.md").read_text(), "## Public calls")
    table = rows(text)[1:]
    expect("DECISIONS' public calls", len(table) > 20, "the table is not found")
    listed = {f"{cells[0].strip('`')}::{name}" for cells in table for name in re.findall(r"`([^`]+)`", cells[1])}
    reading = Path("docs/READING.md").read_text()
    called = {name for cells in rows(section(reading, "## Demand 1"))[1:] for name in re.findall(r"`(\w+::\w+)`", cells[0])}
    called.update(re.findall(r"`([a-z0-9_]+::\w+)`,? with no `requires`", reading))
    for name in sorted(called):
        crate, function = name.split("::")
        there = exported(crate).get(function)
        expect(f"READING's call `{name}` has no requires", there is not None and not there.asks, "it has one, or is not exported")
        expect(f"READING's call `{name}`", name in listed or name == "text_read::read_score", "is not in DECISIONS' public calls")
    for cells in table:
        crate = cells[0].strip("`")
        if not expect(f"DECISIONS' public calls: `{crate}`", crate in CRATES, "is no crate"):
            continue
        there = exported(crate)
        public, parts = (set(re.findall(r"`([^`]+)`", cell)) for cell in cells[1:3])
        same(f"DECISIONS' public calls of {crate}", public | parts, set(there))
        for name in sorted(public & set(there)):
            expect(f"`{crate}::{name}` has no requires", not there[name].asks, "it has one, or is a part")


def counts() -> None:
    """How many: crates, wrong programs, waves, vectors."""
    waves = len([v for name, v in VARIANTS if name == "SeqWave" and v != "Sampler"])
    expect("README: eighteen voices", waves == 18 and "eighteen voices" in Path("README.md").read_text().splitlines()[0])
    for document in ("README.md", "docs/READING.md", "docs/DECISIONS.md", "docs/DEVELOPING.md"):
        text = Path(document).read_text()
        for number in re.findall(r"\b([0-9]+) crates\b", text):
            expect(f"{document}: {number} crates", int(number) == len(CRATES), f"there are {len(CRATES)}")
        for number in re.findall(r"\b([0-9]+) wrong programs\b", text):
            expect(f"{document}: {number} wrong programs", int(number) == len(EDITS), f"there are {len(EDITS)}")
    said = {cells[0].strip("`"): [int(n.replace(",", "")) for n in re.findall(r"\b[0-9][0-9,]*\b", cells[1])]
            for cells in rows(section(Path("docs/DEVELOPING.md").read_text(), "## Vectors"))[1:]}
    for crate, first in VECTORS.items():
        stdout = Path(f"crates/{crate}/stdout").read_text(encoding="latin-1").splitlines()
        there = [sum(line.split(" ")[0] in group for line in stdout) if group else len(stdout) for group in first]
        expect(f"DEVELOPING: how many of {crate}", all(n in said.get(crate, ()) for n in there), f"there are {there}")
    programs = {crate for crate in CRATES if re.fullmatch(r"\w+_vectors|replay|quarter_tones", crate)}
    same("DEVELOPING's vectors", set(said), programs)


# the first words of the lines of a program's output that are counted; none: all lines
VECTORS: Dict[str, List[Tuple[str, ...]]] = {
    "quarter_tones": [()], "det_vectors": [()], "float_vectors": [()], "groove_vectors": [("groove", "draws"), ("mapped",)],
    "voice_vectors": [("note",)], "score_vectors": [("score",)], "replay": [("text", "show")], "cue_vectors": [("sheet",)],
    "wave_vectors": [("read", "write")], "board_vectors": [("write", "tick", "read")],
}


# ---- refusals and versions

def refusals() -> None:
    """Numbers, names and reasons of tools/refusals.tsv in docs/refusals.md and in tono.h."""
    table = [line.split("\t") for line in Path("tools/refusals.tsv").read_text().splitlines()]
    listed = [line for line in Path("docs/refusals.md").read_text().splitlines() if re.match(r"^\| [0-9]", line)]
    wanted = [f"| {number} | `{name}` | {by} | {reason} | {cure} |" for number, name, by, reason, cure in table]
    for line in wanted:
        expect(f"docs/refusals.md has: {line[:60]}", line in listed)
    expect("docs/refusals.md has the refusals in their order, and no others", listed == wanted)
    header = Path("include/tono.h").read_text()
    named = re.findall(r"^    (TONO_REFUSED_[A-Z_]+) = ([0-9]+),?$", header, re.M)
    expect("tono.h has the refusals", named == [(f"TONO_REFUSED_{name}", number) for number, name, *_ in table])
    reasons = re.findall(r'^    case (TONO_REFUSED_[A-Z_]+): return "(.*)";$', header, re.M)
    expect("tono.h has the reasons", reasons == [(f"TONO_REFUSED_{name}", reason) for _, name, _, reason, _ in table])
    numbers = {int(number) for number, *_ in table}
    outcome = Path("crates/outcome/specs/Answer.antt").read_text()
    given = {int(n) for n in re.findall(r"^number_of \w+ = ([0-9]+)$", outcome, re.M)}
    expect("refusals.tsv has every number of number_of", bool(given) and given <= numbers, f"missing: {sorted(given - numbers)}")


def versions() -> None:
    header = Path("include/tono.h").read_text()
    parts = [re.search(rf"^#define TONO_VERSION_{part} ([0-9]+)$", header, re.M) for part in ("MAJOR", "MINOR", "PATCH")]
    version = ".".join(part[1] for part in parts if part)
    expect("tono.h has a version", re.fullmatch(r"[0-9]+\.[0-9]+\.[0-9]+", version) is not None)
    expect("tono.h's version in words", f'TONO_VERSION "{version}"' in header)
    said = [v for p in files("python/**/*.py") for v in re.findall(r'^VERSION = "([^"]*)"', p.read_text(), re.M)]
    expect("the Python module's version", said == [version], f"it has {said}, and tono.h {version}")
    readme = Path("README.md").read_text()
    expect("README names its version", f"version {version}" in readme)
    for document in NAMED:
        for cited in re.findall(r"^ *tono ([0-9.]+) (?:seed|stations)=", Path(document).read_text(), re.M):
            expect(f"{document}: the citation of {cited}", cited == version, f"the version is {version}")
    rt = shutil.which("rt")
    if rt:
        kit = subprocess.run([rt, "version"], capture_output=True, text=True, check=False).stdout.strip()
        expect("README names the kit that it is proved with", f"`{kit}`" in readme, f"it is {kit}")
    decisions = Path("docs/DECISIONS.md").read_text()
    for cited in re.findall(r"It is ([0-9]+\.[0-9]+\.[0-9]+)", decisions):
        expect(f"DECISIONS: it is {cited}", cited == version, f"the version is {version}")


# ---- form

def landings() -> None:
    """One heading a card, notes of at most 15 lines, 30 KB in all."""
    text = Path("docs/LANDINGS.md").read_text()
    notes = re.split(r"^## ", text, flags=re.M)[1:]
    for note in notes:
        title, *lines = note.splitlines()
        expect(f"LANDINGS: {title}", sum(bool(line) for line in lines) <= 15, "has more than 15 lines")
    for card in range(1, 15):
        titles = [note for note in notes if re.match(rf"Card {card}\b", note)]
        expect(f"LANDINGS: Card {card}", len(titles) == 1, f"has {len(titles)} headings")
    expect("LANDINGS", len(text.encode()) <= 30_000, "is above 30 KB")


def form() -> None:
    expect("README", len(Path("README.md").read_bytes()) <= 12_000, "is above 12 KB")
    for document in DOCUMENTS:
        text = Path(document).read_text()
        for link in re.findall(r"\]\(([^):#]+)\)", text):
            expect(f"{document}: the link to {link}", Path(document).parent.joinpath(link).exists(), "leads nowhere")
        left = re.findall(r"%[A-Z][A-Z0-9-]*%|\bTODO\b|\bFIXME\b", text)
        expect(f"{document}: nothing is left to fill in", not left, ", ".join(left))


for check in (names, in_their_files, theorems, wrong_programs, pages, public_calls, counts, refusals, versions, landings, form):
    check()
print(f"{passed} passed, {failed} failed")
sys.exit(failed > 0)
