# shellcheck shell=bash
# What the wrappers at the top of the repository share: ./NAME runs the program target/bin/NAME on a text
# score, or another input. A wrapper reads this with the repository's folder and NAME as arguments, and the program's own
# name where it is another, and defines `help`. Then it calls `open_input "$@"`, which leaves the input in $room/input
# and where it came from in $from; `build`, which leaves the program of the present sources in $program; and, before and
# after it writes to descriptor 4, `stage` and `publish`.
#
# Where the wrappers are installed, the folder has a file `version`, the programs are in bin, and nothing is built.

# How long the first run takes.
usual="30 to 90 minutes"

root=$1
name=$2
package=${3:-$2}
# what the wrapper reads, and an example
input="a text score"
such="examples/scope.score"
shown=./$name
program=$root/target/bin/$package
if [ -f "$root/version" ]; then
    name=tono-$name
    shown=$name
    program=$root/bin/$package
fi
# What is built and recorded: the program, or another file.
made=$program
# What `rt` leaves of the crate, of which that is a copy, and the word by which rt builds it.
built=$root/crates/$package/out/$package
verb=run
# Three lines: the sum of the sources that it was made of, and its own; the kit; and which file it is, by identity. The
# record's own time is just before the sources were read.
record=$root/target/$2.sums
log=$root/target/$2.log
from=''
to=''
goal=''
staged=''
room=''
child=''
group=''

say() { printf '%s: %s\n' "$name" "$*" >&2; }
# What is wrong, where and what to do; the status says that nothing was played.
die() {
    say "$@"
    exit 2
}

clean() {
    if [ -n "$room" ]; then rm -rf -- "$room"; fi
    if [ -n "$staged" ]; then rm -f -- "$staged"; fi
    rm -f -- "$record.$$" 2>/dev/null || true
}
# A signal ends what was started too.
stop() {
    if [ -n "$group" ]; then kill -TERM -- "-$group" 2>/dev/null || true; fi
    if [ -n "$child" ]; then kill -TERM "$child" 2>/dev/null || true; fi
    if [ -t 2 ]; then echo >&2; fi
    say "interrupted${group:+; what is proved by now is kept}"
    exit "$1"
}
trap clean EXIT
trap 'stop 129' HUP
trap 'stop 130' INT
trap 'stop 143' TERM

# Waits for what was started last, so that a signal is answered at once.
await() {
    local status=0
    child=$!
    wait "$child" || status=$?
    child=''
    return "$status"
}

kit() { rt version 2>/dev/null || true; }

# The repository may belong to another user, whom git would not trust.
revision_of() { git -c safe.directory="$root" --no-optional-locks -C "$root" "$@" 2>/dev/null; }

version() {
    local number revision kit
    if [ -f "$root/version" ]; then
        cat -- "$root/version"
        return
    fi
    number=$(sed -n 's/^#define TONO_VERSION "\(.*\)"$/\1/p' "$root/include/tono.h")
    revision="unknown revision"
    if [ -e "$root/.git" ] && revision=$(revision_of rev-parse --short=12 HEAD); then
        revision="revision $revision"
        if [ -n "$(revision_of status --porcelain -- crates crates.txt)" ]; then
            revision="$revision with changes"
        fi
    else
        revision="unknown revision"
    fi
    kit=$(kit)
    echo "tono $number, $revision, ${kit:-no kit installed}"
}

# judge FILE: whether it can be read
judge() {
    if [ ! -e "$1" ]; then
        die "$1: no such file; give the path of $input, as $such"
    elif [ -d "$1" ]; then
        die "$1 is a directory; give the path of one ${input#a }, as $such"
    elif [ ! -r "$1" ]; then
        die "$1: no permission to read it; allow it with chmod, or copy the file"
    fi
}

# The input is copied, so that what is explained is what was played. One byte more than a program reads
# shows that it is too long.
take() {
    room=$(mktemp -d 2>/dev/null) || die "no temporary folder could be made in ${TMPDIR:-/tmp}; free some space or set TMPDIR"
    head -c 65537 <&3 >"$room/input" 2>/dev/null &
    await || die "$from could not be read, or ${TMPDIR:-/tmp} is full; check both"
}

sum() { sha256sum <"$1" | cut -d ' ' -f 1; }

# Every file that the program is made of, as one sum. What rt leaves in crates/NAME/out is no source.
sources() {
    (
        cd "$root" && sha256sum crates.txt &&
            find -L crates -regex 'crates/[^/]*/out' -prune -o -type f -exec sha256sum {} + | LC_ALL=C sort
    ) | sha256sum | cut -d ' ' -f 1
}

# Which file $made is: another one in its place has another identity.
identity() { stat -c '%i %s %.9Y %.9Z' -- "$made" 2>/dev/null; }

# Whether $made is recorded and was made by the kit that is installed, if there is one; leaves the record's sums and
# identity in $sums and $was.
is_recorded() {
    local by
    [ -f "$made" ] && [ -r "$record" ] || return 1
    { read -r sums && read -r by && read -r was; } <"$record" 2>/dev/null || return 1
    ! command -v rt >/dev/null || [ "$by" = "$(kit)" ]
}

# Whether $made is that of the present sources, by times alone: it is the file that was recorded, and no file or folder
# that it is made of changed since, as its status says, which no program sets.
is_fresh_by_time() {
    is_recorded && [ "$was" = "$(identity)" ] &&
        [ -z "$(cd "$root" && find -L crates crates.txt -regex 'crates/[^/]*/out' -prune -o -cnewer "$record" -print -quit 2>&1)" ]
}

# Reads the sources; their sum is then in $made_of, and when this began in $began, by the clock that dates files here.
read_sources() {
    if { : >"$record.$$"; } 2>/dev/null; then
        began=$(stat -c %Y -- "$record.$$")
    else
        printf -v began '%(%s)T' -1
    fi
    made_of=$(sources) || die "$root/crates cannot be read whole; check its permissions"
}

# Whether $made is that of the sources that were read.
is_fresh() { is_recorded && [ "$sums" = "$made_of $(sum "$made")" ]; }

# Records that $made is that of the sources that were read. What changed up to a second before they were counts as
# changed after, and is read again.
put_record() {
    printf '%s %s\n%s\n%s\n' "$made_of" "$(sum "$made")" "$(kit)" "$(identity)" >"$record.$$" &&
        touch -d "@$((began - 1))" "$record.$$" && mv -f -- "$record.$$" "$record"
}

# Whether $made is fresh: by times, or else by reading the sources; where that finds nothing new, the record gets another
# time, if it can be written.
is_ready() {
    if is_fresh_by_time; then return 0; fi
    read_sources
    is_fresh || return 1
    if command -v rt >/dev/null; then (put_record) 2>/dev/null || true; fi
}

# How many crates the program rests on, itself included.
crates() {
    awk -v top="$package" '
        { sub(/#.*/, ""); i = index($0, ":") }
        i { split(substr($0, 1, i - 1), word, " "); rests[word[1]] = substr($0, i + 1) }
        END {
            todo[1] = top; last = 1
            for (at = 1; at <= last; at++) {
                if (!(todo[at] in rests) || todo[at] in seen) continue
                seen[todo[at]] = 1; count++
                n = split(rests[todo[at]], on, " ")
                for (k = 1; k <= n; k++) todo[++last] = on[k]
            }
            print count + 0
        }' "$root/crates.txt"
}

# Prints how many crates are proved, if that changed, and else each ten seconds; on a terminal over the line before.
# rt says nothing of a crate that was proved before, so at the end all are.
told=''
told_at=0
show_progress() {
    local count=${2:-}
    if [ -z "$count" ]; then count=$(grep -c '^logic=proved ' "$log" || true); fi
    if [ "$count" = "$told" ] && [ $((SECONDS - told_at)) -lt 10 ]; then return; fi
    told=$count
    told_at=$SECONDS
    if [ -t 2 ]; then
        printf '\r%s: %s of %s proved, %s s ' "$name" "$count" "$1" "$SECONDS" >&2
    else
        say "$count of $1 proved, $SECONDS s"
    fi
}

# run_rt: has rt prove the crate and build it, and says meanwhile how many crates are proved
run_rt() {
    local total status=0 crate
    total=$(crates)
    SECONDS=0
    { : >"$log"; } 2>/dev/null || die "$log cannot be written; allow it, or copy the repository"
    # in a group of its own, so that a signal can end all of it; a program is run once, on no input
    set -m
    (cd "$root/crates/$package" && exec rt "$verb") >"$log" 2>&1 </dev/null &
    group=$!
    set +m
    while kill -0 "$group" 2>/dev/null; do
        show_progress "$total"
        sleep 0.5 &
        await || true
    done
    wait "$group" 2>/dev/null || status=$?
    group=''
    if [ "$status" -eq 0 ]; then show_progress "$total" "$total"; else show_progress "$total"; fi
    if [ -t 2 ]; then echo >&2; fi
    if [ "$status" -ne 0 ]; then
        crate=$(sed -n 's/^rt: the library \([A-Za-z0-9_]*\) did not build.*/\1/p' "$log" | head -n 1)
        if [ -z "$crate" ] && grep -q '^logic=not-proved' "$log"; then crate=$package; fi
        if [ -n "$crate" ]; then die "the crate $crate is not proved; $log says why"; fi
        if [ "$verb" = lib ]; then die "rt could not build libtono.a; $log says why"; fi
        die "rt ended with status $status; $log says why"
    fi
}

# Copies what rt built to its place, and records it.
keep_built() {
    if [ ! -f "$built" ]; then die "rt wrote no ${built#"$root/"}; remove ${built%/*} and start again"; fi
    if ! { mkdir -p -- "${made%/*}" && cp -p -- "$built" "$made.$$" && mv -f -- "$made.$$" "$made"; } 2>/dev/null; then
        rm -f -- "$made.$$" 2>/dev/null || true
        die "$made cannot be written; allow it, or free some space"
    fi
    put_record 2>/dev/null || die "$record cannot be written; allow it, or free some space"
}

# Proves and builds the program.
prove() {
    if [ -f "$record" ]; then
        say "the sources or the kit changed: proving again what changed, before playing"
    else
        say "first run: proves $(crates) crates before it builds the program; this may take $usual, once"
    fi
    run_rt
    keep_built
}

# One wrapper proves at a time; the others wait and then find the program.
lock() {
    if ! mkdir -p -- "$root/target" 2>/dev/null || [ ! -w "$root/target" ]; then
        die "$root/target cannot be written; allow it, or copy the repository"
    fi
    command -v flock >/dev/null || return 0
    { exec 8>>"$root/target/wrapper.lock"; } 2>/dev/null ||
        die "$root/target/wrapper.lock cannot be written; allow it, or copy the repository"
    if ! flock -n 8; then
        say "another run is proving; waiting for it"
        flock 8 &
        await || true
    fi
}

# of_archive NAME: what is built is the archive of a static library, target/staticlib/NAME
of_archive() {
    made=$root/target/staticlib/$1
    built=$root/crates/$package/out/lib$package.a
    verb=lib
}

# Ends where there is no rt.
need_kit() {
    if command -v rt >/dev/null; then return; fi
    die "Rattle's kit is not installed: there is no command rt on the path; README.md says what you need"
}

# Ends where there is no rt, and what is built is not ready.
need_rt() {
    if ! command -v rt >/dev/null && [ -f "$made" ] && [ -f "$record" ]; then
        die "the sources changed since ${made#"$root/"} was built, and there is no command rt on the path to prove them again; docs/install.md has programs that need none"
    fi
    need_kit
}

# Makes sure that the program is that of the present sources.
build() {
    if [ -f "$root/version" ]; then
        if [ ! -x "$program" ]; then die "$program is missing; install tono again"; fi
        return
    fi
    need_kit
    if is_ready; then return; fi
    lock
    while ! is_ready; do prove; done
}

# Opens descriptor 4 for the answer: standard output, or with -o a file beside the one that is named, which takes its
# place when it is whole. A device or a pipe is written to as it is.
stage() {
    local ending=''
    if [ -z "$to" ]; then
        case $name in *wave) ending=.wav ;; esac
        { exec 4>&1; } 2>/dev/null || die "standard output is closed; write to a file, as $shown FILE > OUT$ending"
        return
    fi
    goal=$(readlink -f -- "$to") || die "$to cannot be written: there is no such folder; make it first"
    if [ -d "$goal" ]; then die "$to is a directory; give the path of a file after -o"; fi
    if [ -e "$goal" ] && { [ ! -f "$goal" ] || [ ! -w "$goal" ]; }; then
        { exec 4>"$goal"; } 2>/dev/null || die "$to cannot be written; allow it, or give another path after -o"
        return
    fi
    staged=$(mktemp -- "$goal.XXXXXX" 2>/dev/null) || die "$to cannot be written: no file can be made in its folder; allow it, or free some space"
    exec 4>"$staged"
}

# The answer is whole: the file takes its place.
publish() {
    exec 4>&-
    if [ -z "$staged" ]; then return; fi
    if [ -e "$goal" ]; then
        chmod --reference="$goal" -- "$staged" 2>/dev/null || true
    else
        chmod "$(printf '%o' $((0666 & ~$(umask))))" -- "$staged"
    fi
    mv -f -- "$staged" "$goal" 2>/dev/null || die "$to cannot be written; allow it, or give another path after -o"
    staged=''
}

# Where the answer goes, in words.
whereto() { if [ -n "$to" ]; then echo "$to"; else echo "standard output"; fi; }

# answer WHAT: runs the program, whose answer is text, and writes it; an R line is explained, and the status is 1
answer() {
    local text status=0 first
    text=$("$program" <"$room/input" && echo .) || status=$?
    if [ "$status" -ne 0 ]; then die "the program ended with status $status; $(cure)"; fi
    text=${text%.}
    first=${text%%$'\n'*}
    if [[ $first == R$'\t'* && -n $to ]]; then
        explain "${first#*$'\t'}"
        return 1
    fi
    if [ -n "$to" ]; then stage; else { exec 4>&1; } 2>/dev/null || true; fi
    if ! { printf '%s' "$text" >&4; } 2>/dev/null; then
        die "the $1 could not be written to $(whereto); free some space or write elsewhere"
    fi
    if [[ $first == R$'\t'* ]]; then
        explain "${first#*$'\t'}"
        return 1
    fi
    publish
}

# What to do about a program that does not end well.
cure() { if [ -f "$root/version" ]; then echo "install tono again"; else echo "remove $root/target and start again"; fi; }

# The reason for a refusal, in one line.
explain() {
    local number=$1 reason=''
    if [ "$number" = 15 ]; then reason=$("$root/tools/form" "$room/input" 2>/dev/null || true); fi
    if [ -z "$reason" ]; then
        reason=$(awk -F '\t' -v number="$number" '$1 == number { print $4 "; " $5 }' "$root/tools/refusals.tsv" 2>/dev/null || true)
    fi
    say "$from is refused with $number: ${reason:-README.md says why, under \"When a score is refused\"}"
}

# The input that the arguments name, and where the answer goes.
open_input() {
    local files=()
    while [ $# -gt 0 ]; do
        case $1 in
        --help | -h)
            help
            exit 0
            ;;
        --version)
            version
            exit 0
            ;;
        -o)
            if [ $# -lt 2 ] || [ -z "$2" ]; then die "-o needs the path of the file to write; see $shown --help"; fi
            to=$2
            shift
            ;;
        --)
            shift
            files+=("$@")
            break
            ;;
        -) files+=("$1") ;;
        -*) die "$1: no such option; see $shown --help" ;;
        *) files+=("$1") ;;
        esac
        shift
    done
    if [ ${#files[@]} -gt 1 ]; then die "${#files[@]} files were given; give one ${input##* } at a time"; fi
    if [ ${#files[@]} -eq 1 ] && [ "${files[0]}" != - ]; then
        from=${files[0]}
        judge "$from"
        { exec 3<"$from"; } 2>/dev/null || die "$from cannot be opened; check its permissions"
    else
        from="standard input"
        { exec 3<&0; } 2>/dev/null || die "standard input is closed; give the path of $input"
        if [ -t 0 ]; then say "reading $input from the terminal; Ctrl-D ends it"; fi
    fi
    take
}
