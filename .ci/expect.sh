# shellcheck shell=bash
# What the tests of this folder share. A test sets `work` to a folder of its own before it reads this,
# calls `expect` for each case, and ends with `finish`.
passed=0
failed=0

# expect NAME COMMAND..: one case, which passes if the command succeeds
expect() {
    local name=$1
    shift
    if "$@"; then
        passed=$((passed + 1))
    else
        failed=$((failed + 1))
        echo "${0##*/}: $name: FAILED"
    fi
}

# ends STATUS COMMAND..: whether a command ends with a status; what it prints is kept for the next cases
ends() {
    local wanted=$1 got=0
    shift
    "$@" >"${work:?}/out" 2>"$work/said" || got=$?
    if [ "$got" -eq "$wanted" ]; then return 0; fi
    echo "status $got in place of $wanted: $(tail -n 1 "$work/said")"
    return 1
}

# says TEXT: whether the command before wrote this one line to standard error, and prints TEXT
says() {
    if [ "$(cat "${work:?}/said")" = "$1" ] && [ "$(wc -l <"$work/said")" -eq 1 ]; then return 0; fi
    echo "standard error has: $(cat "$work/said")"
    return 1
}

# prints TEXT: whether the command before wrote this to standard output
prints() {
    if [ "$(cat "${work:?}/out")" = "$1" ]; then return 0; fi
    echo "standard output has: $(head -n 5 "$work/out")"
    return 1
}

# The last line of every test; the status is 1 if a case failed.
finish() {
    echo "$passed passed, $failed failed"
    [ "$failed" -eq 0 ]
}
