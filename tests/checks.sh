# For the tests in shell, which source this file: named checks that are counted, and where things are.
#
# A check that fails prints its name, what was expected and what came. At its end a test calls `finish`.
# shellcheck shell=bash
# shellcheck disable=SC2034

top=$(cd "$(dirname "${BASH_SOURCE[0]}")/.." && pwd) || exit 1
data=$top/examples/data
test_name=$(basename "$0" .sh)
passed=0 failed=0 skipped=0

# Prints the first bytes of texts and files as one line.
brief() {
    head -c "${brief_bytes:-400}" | tr '\n' '|'
}

# Counts a check as failed: its name, what was expected, what came.
fails() {
    failed=$((failed + 1))
    printf 'FAILED %s/%s\n  expected: %s\n  came: %s\n' "$test_name" "$1" "$2" "$3"
}

# Checks that a status is 0: its name, the status, what was expected, what came.
check() {
    if [ "$2" -eq 0 ]; then passed=$((passed + 1)); else fails "$1" "$3" "${4:-status $2}"; fi
}

# Checks that a text is as expected: its name, what is expected, what came.
same_text() {
    if [ "$3" = "$2" ]; then passed=$((passed + 1)); else fails "$1" "$(brief <<<"$2")" "$(brief <<<"$3")"; fi
}

# Checks that a file has the bytes of another: its name, the file, the other, and what the other is.
same_file() {
    if cmp -s "$2" "$3"; then
        passed=$((passed + 1))
    else
        fails "$1" "$4: $(brief <"$3")" "$(cmp "$2" "$3" 2>&1 | brief): $(brief <"$2")"
    fi
}

# Checks that a file has no bytes: its name, the file.
empty_file() {
    if [ ! -s "$2" ]; then passed=$((passed + 1)); else fails "$1" "no bytes" "$(brief <"$2")"; fi
}

# Counts a check as skipped, or as failed where the variable CI is set: its name, and what is missing.
count_missing() {
    if [ -n "${CI:-}" ]; then
        fails "$1" "$2, for the variable CI is set" "missing"
    else
        skips "$1" "missing: $2"
    fi
}

# Counts a check as skipped everywhere: its name and why.
skips() {
    skipped=$((skipped + 1))
    echo "SKIPPED $test_name/$1: $2"
}

# Prints the counts, and answers whether no check failed.
finish() {
    echo "$test_name: $passed passed, $failed failed, $skipped skipped"
    [ "$failed" -eq 0 ]
}

# Ends the test at a failure after which it cannot go on: its name, what was expected, what came.
give_up() {
    fails "$@"
    finish
    exit 1
}

# Prints the path of a program: the one that is given, or the one that rt ci and rt run leave in the folder of the crate. If it is
# missing there, it is proved and built, after a line on standard error that says so.
program() {
    local built=$top/crates/$1/out/$1
    if [ -n "${2:-}" ]; then
        realpath "$2"
        return
    fi
    if [ ! -x "$built" ] && command -v rt >/dev/null; then
        echo "building a missing program: rt run in crates/$1 proves it, for up to half an hour" >&2
        (cd "$top/crates/$1" && rt run </dev/null >/dev/null 2>&1)
    fi
    [ -x "$built" ] && realpath "$built"
}

# Prepares a graph by the Python package of this checkout.
prepare() {
    PYTHONPATH=$top/python${PYTHONPATH:+:$PYTHONPATH} python3 -c \
        'import sys; from district_audit.commands import prepare; sys.exit(prepare())' "$@"
}
