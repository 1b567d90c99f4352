#!/bin/bash
# Runs the real program where files, folder and output are not as they have to be, as any user can have them, and compares status, note,
# report and files with what they have to be.
#
# RUN: {auditor}
# QUICK

source "$(dirname "$0")/../checks.sh"
program=$(program audit_program "${1:-${DISTRICT_AUDIT:-}}") || give_up program "the built program" "no program"
room=$(mktemp -d) || give_up folder "a temporary folder" "none"
holder=
trap '[ -z "$holder" ] || kill "$holder"; rm -rf "$room"' EXIT
graph=$data/cycle.json

words=(run --pop pop --first a --second b --district d --slack 5000
    --key 0000000000000000000000000000000000000000000000000000000000000000
    --walks 12 --steps 8 --ask gap:low)

# Makes an empty folder of this name, and goes there. The checks that follow begin with its name.
folder() {
    name=$1
    mkdir "$room/$name" && cd "$room/$name" || give_up "$name" "a folder" "none"
    step=0
}

# Makes a run in the folder, with more words; it has to end within a minute, with the status $1 and the note $2.
run() {
    local wanted=$1 note=$2
    shift 2
    timeout 60 "$program" "${words[@]}" "$@" <"$graph" >"$room/$name.out" 2>"$room/$name.note"
    expect_end $? "$wanted" "$note"
}

# The run ended with the status $1; it has to be $2, with the note $3.
expect_end() {
    step=$((step + 1))
    same_text "$name/end_$step" "status $2, note: $3" "status $1, note: $(cat "$room/$name.note")"
}

# The files of the folder.
sum_of_slots() {
    stat -c '%n %s %y %z' . ./* 2>&1 | cat - ./audit-?.ckpt 2>/dev/null | sha256sum
}

# The run wrote the whole report, or nothing.
expect_report() {
    same_file "$name/report_$step" "$room/$name.out" "$room/whole.out" "the report of one run without saving"
}
expect_nothing() {
    empty_file "$name/report_$step" "$room/$name.out"
}

# The folder has to hold these files.
expect_files() {
    same_text "$name/files_$step" "$1" "$(echo $(ls))"
}

# The file $1 has to have $2 bytes.
expect_size() {
    same_text "$name/size_$step" "$2" "$(stat -c %s "$1" 2>&1)"
}

folder whole
run 0 ""
[ -s "$room/whole.out" ]
check whole/report $? "a report" "nothing"
expect_files ""

# A folder in a file's place is there, and cannot be loaded; without its load nothing is saved.
folder folder
mkdir audit-0.ckpt
run 6 "checkpoint load fault" --save 2 --resume yes
expect_nothing
expect_files audit-0.ckpt
[ -d audit-0.ckpt ]
check "$name/kind" $? "a folder in the slot's place, as before"

# A file that cannot be opened is not absent: here a link that leads to itself.
folder loop
ln -s audit-1.ckpt audit-1.ckpt
run 6 "checkpoint load fault" --save 2 --resume yes
expect_nothing
expect_files audit-1.ckpt

# An empty file is there, and too short.
folder empty
: >audit-0.ckpt
run 8 "checkpoint: slot 0 too short, slot 1 absent" --save 2 --resume yes
expect_nothing
expect_size audit-0.ckpt 0

# A file that is a byte too long.
folder long
head -c 8000085 /dev/zero >audit-1.ckpt
run 8 "checkpoint: slot 0 absent, slot 1 too long" --save 2 --resume yes
expect_nothing
expect_size audit-1.ckpt 8000085

# Devices, a pipe that nobody writes to, and a link to nothing stand in the place of files, and are neither opened nor written. With and
# without going on.
for kind in null full pipe nothing; do
    for more in "" "--resume yes"; do
        folder "a_$kind${more//[- ]/_}"
        case $kind in
            pipe) mkfifo audit-0.ckpt ;;
            nothing) ln -s elsewhere audit-0.ckpt ;;
            *) ln -s "/dev/$kind" audit-0.ckpt ;;
        esac
        # shellcheck disable=SC2086
        run 6 "checkpoint load fault" --save 2 $more
        expect_nothing
        expect_files audit-0.ckpt
    done
done

# A folder that another process holds: a run that saves or resumes, and one that does both, touches nothing, with slots in it and without. A
# run that does neither goes on, and so does each of them as soon as the folder is let go.
folder locked
mkfifo "$room/holding"
for slots in 0 1; do
    if [ $slots = 1 ]; then run 7 "stopped: 4 of 12 done" --save 4 --budget 4; fi
    before=$(sum_of_slots)
    python3 -c 'import fcntl, os, sys, time
folder = os.open(".", os.O_RDONLY)
fcntl.flock(folder, fcntl.LOCK_EX)
open(sys.argv[1], "w").close()
time.sleep(600)' "$room/holding" &
    holder=$!
    : <"$room/holding"
    for more in "--save 2" "--resume yes" "--save 2 --resume yes"; do
        # shellcheck disable=SC2086
        run 6 "checkpoint: another run holds the folder" $more
        expect_nothing
        same_text "$name/untouched_$step" "$before" "$(sum_of_slots)"
    done
    run 0 ""
    expect_report
    kill "$holder"
    wait "$holder" 2>/dev/null
    holder=
done
run 0 "" --save 2 --resume yes
expect_report

# Two slots that are one file, by a link of either kind; and a link to a plain file of its own, which is a slot as any other.
for kind in hard soft; do
    folder "$kind"
    run 7 "stopped: 4 of 12 done" --save 4 --budget 4
    if [ $kind = hard ]; then ln audit-0.ckpt audit-1.ckpt; else ln -s audit-0.ckpt audit-1.ckpt; fi
    run 6 "checkpoint load fault" --save 2 --resume yes
    expect_nothing
    expect_size audit-0.ckpt 404
done
folder elsewhere
run 7 "stopped: 4 of 12 done" --save 4 --budget 4
mkdir "$room/far" && mv audit-0.ckpt "$room/far/kept" && ln -s "$room/far/kept" audit-0.ckpt
run 0 "" --save 2 --resume yes
expect_report

# Makes a run that can write no byte to any file; its report and its note go through pipes.
limited='import resource, signal, subprocess, sys
def limit():
    signal.signal(signal.SIGXFSZ, signal.SIG_IGN)
    resource.setrlimit(resource.RLIMIT_FSIZE, (0, 0))
end = subprocess.run(sys.argv[3:], stdin=sys.stdin, capture_output=True, preexec_fn=limit)
open(sys.argv[1], "wb").write(end.stdout)
open(sys.argv[2], "wb").write(end.stderr)
sys.exit(end.returncode)'
run_limited() {
    local wanted=$1 note=$2
    shift 2
    python3 -c "$limited" "$room/$name.out" "$room/$name.note" "$program" "${words[@]}" "$@" <"$graph"
    expect_end $? "$wanted" "$note"
}

# No byte can be written: each save fails, to the same slot, and the report is whole.
folder full
run_limited 9 "checkpoint save fault" --save 2
expect_report
expect_files audit-0.ckpt

# A working folder in which no file can be made: it is no longer there.
folder gone
rmdir "$room/gone"
run 9 "checkpoint save fault" --save 2 --resume yes
expect_report

# Once two slots are saved, the older one cannot be written: the newest stays as it is, and is resumed.
folder half
run 7 "stopped: 4 of 12 done" --save 4 --budget 4
expect_files audit-0.ckpt
run 7 "stopped: 8 of 12 done" --save 4 --budget 4 --resume yes
run_limited 9 "checkpoint save fault" --save 2 --budget 2 --resume yes
expect_nothing
expect_size audit-1.ckpt 724
run 0 "" --save 2 --resume yes
expect_report

# Standard output: a full device, closed from the start, and closed by its reader in mid-report.
folder output
"$program" "${words[@]}" <"$graph" >/dev/full 2>"$room/$name.note"
expect_end $? 5 "write fault"
"$program" "${words[@]}" <"$graph" >&- 2>"$room/$name.note"
expect_end $? 5 "write fault"
mkfifo pipe
head -c 10 <pipe >/dev/null &
"$program" run "${words[@]:1:12}" --walks 5000 --steps 8 --ask gap:low,cut-edges:low <"$graph" >pipe 2>"$room/$name.note"
expect_end $? 5 "write fault"
wait

# A pipe that answers that it would have to wait, for output and for input: the run goes on as soon as the other end does.
unwaiting='import fcntl, os, sys
stream = int(sys.argv[1])
fcntl.fcntl(stream, fcntl.F_SETFL, fcntl.fcntl(stream, fcntl.F_GETFL) | os.O_NONBLOCK)
os.execv(sys.argv[2], sys.argv[2:])'
long=(run "${words[@]:1:12}" --walks 5000 --steps 8 --ask gap:low,cut-edges:low)
"$program" "${long[@]}" <"$graph" >"$room/$name.long" 2>"$room/$name.note"
expect_end $? 0 ""
[ "$(stat -c %s "$room/$name.long")" -gt 200000 ]
check "$name/long_report" $? "a report too long to go through a pipe at once" "$(stat -c %s "$room/$name.long") bytes"
mkfifo slow
{ sleep 1; cat >"$room/$name.out"; } <slow &
python3 -c "$unwaiting" 1 "$program" "${long[@]}" <"$graph" >slow 2>"$room/$name.note"
expect_end $? 0 ""
wait
same_file "$name/report_through_a_pipe" "$room/$name.out" "$room/$name.long" "the report that a file got"
{ sleep 1; cat "$graph"; } >slow &
python3 -c "$unwaiting" 0 "$program" "${words[@]}" <slow >"$room/$name.out" 2>"$room/$name.note"
expect_end $? 0 ""
expect_report
wait

# Standard input: a folder, and closed.
"$program" "${words[@]}" <"$room" >"$room/$name.out" 2>"$room/$name.note"
expect_end $? 4 "read fault"
expect_nothing
"$program" "${words[@]}" <&- >"$room/$name.out" 2>"$room/$name.note"
expect_end $? 4 "read fault"
expect_nothing

# Standard error: where no note can be written, the status stays.
"$program" audit </dev/null >/dev/null 2>/dev/full
same_text "$name/refused_words_without_a_note" "status 1" "status $?"
"$program" "${words[@]}" <"$graph" >/dev/full 2>&-
same_text "$name/failed_write_without_a_note" "status 5" "status $?"

# Words that are no text: a byte that no UTF-8 has.
"$program" check --pop $'\xff' </dev/null >"$room/$name.out" 2>"$room/$name.note"
expect_end $? 1 "words: not text"
expect_nothing
finish
