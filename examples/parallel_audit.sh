#!/bin/bash
# One audit in parts with GNU parallel, on this machine or on several: its job log says which parts ended, those that a time limit or a lost
# machine has ended are started again, and at the end all are gathered and the report is written.
#
# Usage: bash parallel_audit.sh
# Copy this file into the folder of the audit with the graph, change what stands between the two lines below, and start it there, again
# where it was stopped:  bash parallel_audit.sh
# With other machines the folder is on a disk that all of them see, and `machines` names them as parallel's --sshlogin does.

# ---- change from here
program=$HOME/bin/district-audit      # as scripts/install.sh leaves it
gatherer=$HOME/bin/audit_gather
graph=graph.json                      # in this folder
parts=20                              # at most as many as there are trajectories; not to be changed midway
cores=2                               # of each part
together=4                            # parts at one time on each machine
time=86400                            # seconds of each part, more than its longest trajectory: what is not done by then is started again
machines=()                           # as (--sshlogin one,two)
words=(run --pop TOTPOP --first DEM --second REP --district CD
    --key 2b7e151628aed2a6abf7158809cf4f3c762e7160f38b4da56a784d9045190cfe
    --walks 8 --steps 1000000000 --ends 999 --hub-steps 10000000 --ask gap:high,mean-median:high)
saving=(--save 1)                     # after each trajectory
# ---- to here

case ${1:-} in
    --help | -h)
        sed -n '2,/^[^#]/{/^#/s/^# \{0,1\}//p}' "$0"
        exit 0
        ;;
esac
script=$(realpath "$0")
folder=$(dirname "$script")
cd "$folder" || exit 1
mapfile -t folders < <(for ((part = 0; part < parts; part++)); do echo "../part-$part"; done)

# Walks a part. Without a budget, status 7 says that the part is complete while others are missing here: a scheduler gets 0 for it. A machine that
# died within the first save of all left a part of one file: nothing was saved, so the file is taken away.
walk() {
    mkdir -p "part-$1" && cd "part-$1" || exit 1
    local status
    while :; do
        "$program" "${words[@]}" "${saving[@]}" --resume yes --workers "$cores" --parts "$parts" --part "$1" <"$folder/$graph" >report.new 2>note
        status=$?
        cat note >&2
        case $status,$(cat note) in 8,"checkpoint: slot 0 "*", slot 1 absent") rm audit-0.ckpt || exit ;; *) break ;; esac
    done
    case $status,${words[*]} in
        7,*--budget*) echo "part $1 may be incomplete: its budget is used up" >&2 ;;
        7,*) status=0; echo "part $1 of $parts is complete (status 7, for the other parts, becomes 0)" >&2 ;;
    esac
    [ $status -eq 0 ] || exit $status
}

if [ "${1:-}" = walk ]; then
    walk "$2"
    exit
fi

# Each part that the job log does not show as ended with 0 is started, again and again while something more is done.
mkdir -p all
before=-1
while ! parallel --will-cite "${machines[@]}" --jobs "$together" --timeout "$time" --joblog parts.log --resume-failed \
    bash "$script" walk ::: $(seq 0 $((parts - 1))) 2>>parts.err; do
    so_far=$(cd all && "$gatherer" --look yes "${folders[@]}" "${words[@]}" <"$folder/$graph" | sed -n 's/^done: \([0-9]*\) of .*/\1/p')
    [ "${so_far:-0}" -gt "$before" ] || { echo "this round has done nothing: see parts.log and parts.err" >&2; exit 1; }
    before=$so_far
done

cd all || exit 1
# A gathering that died within the first save of all left a part of one file here.
case $("$gatherer" --look yes "${folders[@]}" "${words[@]}" <"$folder/$graph") in
    "working folder: no slot is intact"*) rm -f audit-[01].ckpt ;;
esac
"$gatherer" "${folders[@]}" "${words[@]}" <"$folder/$graph" || exit
"$program" "${words[@]}" "${saving[@]}" --resume yes --workers "$cores" <"$folder/$graph" >"$folder/report.new" || exit
mv "$folder/report.new" "$folder/report"
