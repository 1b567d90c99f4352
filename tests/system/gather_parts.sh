#!/bin/bash
# Walks one job in three parts, as three processes side by side in three folders, gathers what they found and writes the one report, with
# the real programs over real files. One of the three is killed twice in mid-run and started again. The report has to be, byte for byte,
# that of one run. Then folders that cannot be gathered: a line has to name each of them, and nothing may be saved.
#
# RUN: {auditor} {folders}

source "$(dirname "$0")/../checks.sh"
program=$(program audit_program "${1:-${DISTRICT_AUDIT:-}}") || give_up program "the built program" "no program"
gatherer=$(program audit_folders "${2:-${DISTRICT_AUDIT_FOLDERS:-}}") || give_up gatherer "the built program" "no program"
room=$(mktemp -d) || give_up folder "a temporary folder" "none"
trap 'kill -9 $(jobs -p) 2>/dev/null; rm -rf "$room"' EXIT
# The program goes by the name under which it is called.
ln -s "$gatherer" "$room/audit_gather"
gatherer=$room/audit_gather
cd "$room" || exit 1
key=0000000000000000000000000000000000000000000000000000000000000000

# Makes a run in the folder $2; it has to end with the status $3 and the note $4. Its name is $1, and its words are those of the job.
run() {
    local name=$1 folder=$2 wanted=$3 note=$4
    shift 4
    mkdir -p "$folder"
    (cd "$folder" && "$program" "${words[@]}" "$@" <"$graph" >"$room/$name.out" 2>"$room/$name.note")
    expect_end $? "$name" "$wanted" "$note"
}

expect_end() {
    same_text "run_$2" "status $3, note: $4" "status $1, note: $(cat "$room/$2.note")"
}

# Gathers in the folder $2; it has to end with the status $3, and to write the text $4 where that is 0, else this note. Its name is $1.
gather() {
    local name=$1 folder=$2 wanted=$3 text=$4 said=out
    shift 4
    mkdir -p "$folder"
    (cd "$folder" && "$gatherer" "$@" "${words[@]}" <"$graph" >"$room/$name.out" 2>"$room/$name.note")
    local status=$?
    [ "$wanted" -eq 0 ] || said=note
    brief_bytes=2000 same_text "gather_$name" "status $wanted, $text" "status $status, $(cat "$room/$name.$said")"
}

# The folder $1 has to hold these files.
expect_files() {
    checks_of_files=$((checks_of_files + 1))
    same_text "files_${checks_of_files}_$1" "$2" "$(ls "$1" | tr '\n' ' ')"
}
checks_of_files=0

# The report of the run $1 has to be that of the run $2.
same_report() {
    same_file "report_$1" "$room/$1.out" "$room/$2.out" "the report of one run"
}

sum_of() {
    cat "$1"/audit-*.ckpt 2>/dev/null | sha256sum
}

# ---- three parts side by side

graph=/dev/null

# Starts the run of the part $1 in its folder, and leaves its process's number in `started`.
start() {
    mkdir -p "part-$1"
    (cd "part-$1" && exec "$program" "${words[@]}" --save 1 --resume yes --parts 3 --part "$1" <"$graph" >"$room/part-$1.out" 2>"$room/part-$1.note") &
    started=$!
}

# Waits until both slots of the part $1 are there, so that one of them is whole, and are no longer as they were; then stops its run in mid-run. 1
# where it ended before.
stop_after_save() {
    local tries=0
    while [ ! -e "part-$1/audit-1.ckpt" ] || [ "$(sum_of "part-$1")" = "$2" ]; do
        kill -0 "$started" 2>/dev/null || return 1
        [ $((tries += 1)) -lt 6000 ] || give_up "saves_of_part_$1" "a save within a minute" "none"
        sleep 0.01
    done
    kill -STOP "$started" 2>/dev/null || return 1
    until grep -q '^State:.*stopped' "/proc/$started/status" 2>/dev/null; do
        kill -0 "$started" 2>/dev/null && ! grep -q '^State:.*zombie' "/proc/$started/status" 2>/dev/null || return 1
        sleep 0.01
    done
}

# Kills the run of the part $1, which is stopped.
kill_stopped() {
    kill -9 "$started"
    wait "$started" 2>/dev/null
    same_text "killed_part_$1" "status 137" "status $?"
}

# Starts all parts, and kills the run of part 1 twice; 1 where it ended before.
side_by_side() {
    start 0
    zero=$started
    start 2
    two=$started
    start 1
    stop_after_save 1 "$(sum_of nowhere)" || return 1
    run second part-1 6 "checkpoint: another run holds the folder" --save 1 --resume yes --parts 3 --part 1
    empty_file report_second second.out
    kill_stopped 1
    local before
    before=$(sum_of part-1)
    start 1
    stop_after_save 1 "$before" || return 1
    kill_stopped 1
    start 1
}

# The run of part 1 has to be killed in mid-run. Where it ended before, all is begun anew with longer walks: programs differ in speed.
steps=25000
while :; do
    words=(make --size 3 --slack 1000 --walks 18 --steps "$steps" --ends 6 --hub-steps 200000 --ask cut-edges:low,seats:low --key $key)
    side_by_side && break
    # shellcheck disable=SC2046
    kill -9 $(jobs -p) 2>/dev/null
    wait
    rm -rf part-0 part-1 part-2
    passed=0 failed=0
    [ $((steps *= 4)) -le 400000000 ] || give_up kill_part_1 "a run that is killed before it ends" "it ended, whatever the length of its walks"
done
for part in 0 1 2; do
    case $part in
        0) wait "$zero" ;;
        1) wait "$started" ;;
        2) wait "$two" ;;
    esac
    expect_end $? part-$part 7 "stopped: 8 of 24 done"
    empty_file report_part-$part part-$part.out
done
gather parts all 0 $'working folder: no checkpoint\nfolder ../part-0: 8 outcomes, 8 new\nfolder ../part-1: 8 outcomes, 8 new\nfolder ../part-2: 8 outcomes, 8 new\ndone: 24 of 24' \
    ../part-0 ../part-1 ../part-2
expect_files all "audit-0.ckpt "
run gathered all 0 "" --save 1 --resume yes
run whole once 0 "" --workers 4
[ -s whole.out ]
check report_whole $? "a report" "nothing"
same_report gathered whole

# ---- a small job: what folders may hold

graph=$data/cycle.json
words=(run --pop pop --first a --second b --district d --slack 5000 --key $key --walks 12 --steps 8 --ask gap:low)
run small once 0 ""
run part part-3 1 "words: bad value for --part" --save 1 --parts 3 --part 3
for part in 0 1 2; do
    run small-$part small-$part 7 "stopped: 4 of 12 done" --save 1 --parts 3 --part $part
done
run half half 7 "stopped: 2 of 12 done" --save 1 --parts 3 --part 2 --budget 2
run other other 7 "stopped: 4 of 12 done" --save 1 --parts 3 --part 0 --hub-steps 999
mkdir empty

# Holds the lock of a folder, as a run does, and lets it go.
hold() {
    exec 9<"$1" && flock -n 9 || give_up lock "a lock of the folder $1" "none"
}
let_go() {
    exec 9<&-
}

# Halfway folders and an empty one, looked at: nothing is saved, and a run that holds a folder is not in the way.
hold small-0
gather look look 0 $'working folder: no checkpoint\nfolder ../small-0: 4 outcomes, 4 new\nfolder ../half: 2 outcomes, 2 new\nfolder ../empty: no checkpoint\nfolder ../other: another job\'s checkpoint\nfolder ../small-0/: 4 outcomes, 0 new\ndone: 6 of 12' \
    --look yes ../small-0 ../half ../empty ../other ../small-0/
let_go
expect_files look ""

# These folders are gathered: each that cannot be is named.
gather refused refused 10 $'gather: folder ../empty: no checkpoint\ngather: folder ../other: another job\'s checkpoint\ngather: folder ../nowhere: no checkpoint' \
    ../small-0 ../half ../empty ../other ../nowhere
expect_files refused ""
empty_file text_refused refused.out

# A folder that a run holds, and the working folder that a run holds.
hold small-0
gather locked refused 10 'gather: folder ../small-0: a run holds it' ../small-0 ../small-1
let_go
expect_files refused ""
mkdir busy
hold busy
gather busy busy 6 'checkpoint: another run holds the folder' ../small-0 ../small-1
let_go
expect_files busy ""

# A slot that is damaged beside an intact one, and one without.
cp -r small-1 bad && printf x >>bad/audit-0.ckpt
cp -r half worse && printf x >worse/audit-0.ckpt && printf x >worse/audit-1.ckpt
gather worse refused 10 'gather: folder ../worse: no slot is intact' ../small-0 ../bad ../worse
expect_files refused ""
newest=$(cd bad && "$gatherer" --look yes . "${words[@]}" <"$graph" | tail -n 1)
gather bad some 0 $'working folder: no checkpoint\nfolder ../small-0: 4 outcomes, 4 new\nfolder ../bad: '"${newest:6:1}"$' outcomes, '"${newest:6:1}"$' new, one slot is damaged\ndone: '$((4 + ${newest:6:1}))' of 12' \
    ../small-0 ../bad
run some some 0 "" --save 1 --resume yes
same_report some small

# The working folder's own slots: damaged beside an intact one, none intact, and another job's.
cp -r small-0 own && printf x >>own/audit-0.ckpt
own=$(cd own && "$gatherer" --look yes "${words[@]}" <"$graph" | tail -n 1)
gather own own 0 $'working folder: '"${own:6:1}"$' outcomes, one slot is damaged\nfolder ../small-1: 4 outcomes, 4 new\ndone: '$((4 + ${own:6:1}))' of 12' ../small-1
run own own 0 "" --save 1 --resume yes
same_report own small
before=$(sum_of worse)
gather own-worse worse 10 'gather: working folder: no slot is intact' ../small-0
same_text untouched_worse "$before" "$(sum_of worse)"
before=$(sum_of other)
gather own-other other 10 $'gather: working folder: another job\'s checkpoint' ../small-0
same_text untouched_other "$before" "$(sum_of other)"

# One id with two outcomes that differ: the first outcome of the folder has moved otherwise, under a digest that is right.
cp -r small-1 wrong
PYTHONPATH=$top python3 - wrong/audit-0.ckpt wrong/audit-1.ckpt <<'END' || give_up wrong "a checkpoint with another outcome" "none"
import sys
from tests.oracle.model import seal
for name in sys.argv[1:]:
    data = bytearray(open(name, "rb").read())
    data[52 + 11] ^= 1
    open(name, "wb").write(seal(bytes(data[:-32])))
END
gather differs refused 10 'gather: outcome 1 differs in ../small-1 and ../wrong' ../small-0 ../small-1 ../small-2 ../wrong
expect_files refused ""
gather wrong-alone look 0 $'working folder: no checkpoint\nfolder ../wrong: 4 outcomes, 4 new\ndone: 4 of 12' --look yes ../wrong

# Gathered twice, and the working folder among the folders: nothing is new.
gather again all-small 0 $'working folder: no checkpoint\nfolder ../small-0: 4 outcomes, 4 new\nfolder ../half: 2 outcomes, 2 new\ndone: 6 of 12' ../small-0 ../half
gather again all-small 0 $'working folder: 6 outcomes\nfolder .: 6 outcomes, 0 new\nfolder ../small-2: 4 outcomes, 2 new\nfolder ../small-1: 4 outcomes, 4 new\ndone: 12 of 12' \
    . ../small-2 ../small-1
run again all-small 0 "" --save 1 --resume yes
same_report again small

# Of an outcome without a histogram and one with it, the one with it is taken.
run histogram once 0 "" --shift yes
run no-histogram no-histogram 7 "stopped: 4 of 12 done" --save 1 --parts 3 --part 0
run whole-0 whole-0 7 "stopped: 4 of 12 done" --save 1 --parts 3 --part 0 --shift yes
run whole-1 whole-1 7 "stopped: 4 of 12 done" --save 1 --parts 3 --part 1 --shift yes
gather shift shift 0 $'working folder: no checkpoint\nfolder ../no-histogram: 4 outcomes, 4 new\nfolder ../whole-0: 4 outcomes, 0 new\nfolder ../whole-1: 4 outcomes, 4 new\ndone: 8 of 12' \
    ../no-histogram ../whole-0 ../whole-1
run shift shift 0 "" --save 1 --resume yes --shift yes
same_report shift histogram

# Words that are refused.
words=()
for bad in "--look" "--look maybe" "no-folder"; do
    case $bad in
        no-folder) "$gatherer" run --pop pop </dev/null >bad.out 2>bad.note ;;
        *) "$gatherer" $bad run --pop pop </dev/null >bad.out 2>bad.note ;;
    esac
    same_text "refused_words_${bad//[ -]/_}" "status 1" "status $?"
done
finish
