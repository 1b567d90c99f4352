#!/bin/bash
# Halts and resumes a run of the real program over real files, and compares its report with that of one run without saving.
#
# Two runs end with their budget used up, and the third, resumed, writes the report. Each saves after every second walk, and at its end.
# Then runs go on from a checkpoint of the first version of the format, without the tally of seats and with it.
#
# RUN: {auditor}
# QUICK

source "$(dirname "$0")/../checks.sh"
program=$(program audit_program "${1:-${DISTRICT_AUDIT:-}}") || give_up program "the built program" "no program"
room=$(mktemp -d) || give_up folder "a temporary folder" "none"
trap 'rm -rf "$room"' EXIT
mkdir "$room/slots"

words=(run --pop pop --first a --second b --district d --slack 5000
    --key 0000000000000000000000000000000000000000000000000000000000000000
    --walks 12 --steps 8 --ask gap:low)

# Makes the run called $1 in the folder of the slots, with more words. It has to end with the status $2 and the note $3.
run() {
    local name=$1 wanted=$2 note=$3
    shift 3
    (cd "$room/slots" && "$program" "${words[@]}" "$@" <"$data/cycle.json" >"$room/$name.out" 2>"$room/$name.note")
    same_text "$name" "status $wanted, note: $note" "status $?, note: $(cat "$room/$name.note")"
}

# The slot $1 has to have $2 bytes after the run $3.
slot() {
    same_text "$3/slot_$1" "$2 bytes" "$(stat -c '%s bytes' "$room/slots/audit-$1.ckpt" 2>&1)"
}

# The report of the run $1 has to be that of the run $2.
same_report() {
    same_file "$1/report" "$room/$1.out" "$room/$2.out" "the report of one run without saving"
}

run first 7 "stopped: 5 of 12 done" --save 2 --budget 5
empty_file first/report "$room/first.out"
slot 0 484 first
slot 1 404 first
run second 7 "stopped: 10 of 12 done" --save 2 --budget 5 --resume yes
empty_file second/report "$room/second.out"
slot 0 804 second
slot 1 884 second
run third 0 "" --save 2 --budget 5 --resume yes
slot 0 1044 third
slot 1 884 third
run whole 0 ""
[ -s "$room/whole.out" ]
check whole/report $? "a report" "nothing"
same_report third whole

# Leaves the checkpoint of the first version in slot 0, and nothing in slot 1.
begin_old() {
    rm -f "$room"/slots/*
    cp "$top/tests/data/version_1.ckpt" "$room/slots/audit-0.ckpt"
}

begin_old
run old 0 "" --save 2 --resume yes
slot 1 964 old
slot 0 1044 old
same_report old whole
begin_old
run tally 7 "stopped: 5 of 12 done" --save 2 --budget 5 --resume yes --shift yes
slot 1 484 tally
run rest 0 "" --save 2 --resume yes --shift yes
run histogram 0 "" --shift yes
same_report rest histogram
run no_histogram 0 "" --save 2 --resume yes
same_report no_histogram whole
finish
