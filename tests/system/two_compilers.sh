#!/bin/bash
# Compares the builds of two compilers by scripts/two_compilers.sh. In place of the second build stands a script that calls the program and changes
# nothing, a digit of the report, the status, or standard error.
#
# RUN: {auditor}

source "$(dirname "$0")/../checks.sh"
program=$(program audit_program "${1:-${DISTRICT_AUDIT:-}}") || give_up program "the built program" "no program"
room=$(mktemp -d) || give_up folder "a temporary folder" "none"
trap 'rm -rf "$room"' EXIT
words=(run --pop pop --first a --second b --district d --slack 5000
    --key 0000000000000000000000000000000000000000000000000000000000000000 --walks 12 --steps 8 --ask gap:low)

# Compares two builds, the second of this kind.
compare() {
    "$top/scripts/two_compilers.sh" --builds "$room/$1" "${words[@]}" <"$data/cycle.json" >"$room/text" 2>"$room/said"
}

for kind in same digit status note; do
    mkdir -p "$room/$kind"
    cp "$program" "$room/$kind/llvm"
    case $kind in
        same) body="exec '$program' \"\$@\"" ;;
        digit) body="'$program' \"\$@\" | sed 's/moved 3/moved 4/'" ;;
        status) body="'$program' \"\$@\"; exit 7" ;;
        note) body="'$program' \"\$@\"; echo more >&2" ;;
    esac
    printf '#!/bin/sh\n%s\n' "$body" >"$room/$kind/rattle"
    chmod +x "$room/$kind/rattle"
    compare "$kind"
    status=$?
    wanted=100
    [ "$kind" != same ] || wanted=0
    same_text "builds_differ_in_$kind" "status $wanted" "status $status"
done
compare same
"$program" "${words[@]}" <"$data/cycle.json" >"$room/report"
same_file the_report_is_written "$room/text" "$room/report" "the report"
cp "$program" "$room/same/rattle"
compare same
same_text a_build_is_not_compared_with_itself "status 101" "status $?"
empty_file no_report_of_one_build "$room/text"
finish
