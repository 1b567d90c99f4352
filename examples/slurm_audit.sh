#!/bin/bash
# One audit in parts on a Slurm cluster: an array job walks the parts, and one that depends on it gathers them and writes the report. What a
# time limit or a lost machine has ended is queued again, until all is done.
#
# Usage: bash slurm_audit.sh start
# Copy this file into the folder of the audit, on a disk that all machines see, with the graph, change what stands between the two lines
# below, and start it there:  bash slurm_audit.sh start
# The parts' checkpoints are in part-0, part-1 and so on, those of all in `all`, and the report is `report`, which is made only where all is done.
# `start` prints the number of the job that gathers. To stop all, cancel that job first and then the array, since it queues the next one.

# ---- change from here
program=$HOME/bin/district-audit      # as scripts/install.sh leaves it
gatherer=$HOME/bin/audit_gather
graph=graph.json                      # in this folder
parts=20                              # at most as many as there are trajectories; not to be changed midway
cores=8                               # of each part
time=24:00:00                         # of each part, more than its longest trajectory: what is not done by then is queued again
words=(run --pop TOTPOP --first DEM --second REP --district CD
    --key 2b7e151628aed2a6abf7158809cf4f3c762e7160f38b4da56a784d9045190cfe
    --walks 8 --steps 1000000000 --ends 999 --hub-steps 10000000 --ask gap:high,mean-median:high)
saving=(--save 1)                     # after each trajectory
# ---- to here

case ${1:-} in
    --help | -h)
        sed -n '2,/^[^#]/{/^#/s/^# \{0,1\}//p}' "$0"
        exit 0
        ;;
esac
# Slurm runs a copy of this file, so its own place is handed on.
script=${2:-$(realpath "$0")}
cd "$(dirname "$script")" || exit 1
folder=$PWD
mapfile -t folders < <(for ((part = 0; part < parts; part++)); do echo "../part-$part"; done)

# The folder `log` has the jobs' other output.
submit() {
    mkdir -p "$folder/log"
    sbatch --parsable --output="$folder/log/%x-%A-%a.out" "$@"
}

# Queues all parts, and behind them the job that gathers them. A part of which nothing is left ends at once.
queue() {
    local array
    array=$(submit --job-name=audit-part --array="0-$((parts - 1))" --cpus-per-task="$cores" --time="$time" "$script" walk "$script") || exit 1
    submit --job-name=audit-gather --dependency="afterany:$array" --cpus-per-task="$cores" --time="$time" "$script" gather "$script" || exit 1
}

# Walks a part. Without a budget, status 7 says that the part is complete while others are missing here: a scheduler gets 0 for it. A machine that
# died within the first save of all left a part of one file: nothing was saved, so the file is taken away.
walk() {
    mkdir -p "part-$1" && cd "part-$1" || exit 1
    local status
    while :; do
        "$program" "${words[@]}" "${saving[@]}" --resume yes --workers "$cores" --parts "$parts" --part "$1" <"$folder/$graph" >report.new 2>note
        status=$?
        cat note >&2
        case $status,$(cat note) in 8,"checkpoint: slot 0 "*", slot 1 absent") rm audit-0.ckpt || exit ;; *) break ;; esac
    done
    case $status,${words[*]} in
        7,*--budget*) echo "part $1 may be incomplete: its budget is used up" >&2 ;;
        7,*) status=0; echo "part $1 of $parts is complete (status 7, for the other parts, becomes 0)" >&2 ;;
    esac
    [ $status -eq 0 ] || exit $status
}

# Gathers the parts and writes the report, or queues the parts again if a trajectory is missing.
gather() {
    mkdir -p all && cd all || exit 1
    "$gatherer" --look yes "${folders[@]}" "${words[@]}" <"$folder/$graph" >findings || exit
    cat findings
    local before so_far total
    before=$(cat before 2>/dev/null || echo 0)
    read -r so_far total < <(sed -n 's/^done: \([0-9]*\) of \([0-9]*\)$/\1 \2/p' findings)
    if [ "$so_far" -lt "$total" ]; then
        [ "$so_far" -gt "$before" ] || { echo "this round has done nothing: see the logs of the parts" >&2; exit 1; }
        echo "$so_far" >before
        queue
        return
    fi
    # A gathering that died within the first save of all left a part of one file here.
    case $(cat findings) in "working folder: no slot is intact"*) rm -f audit-[01].ckpt ;; esac
    "$gatherer" "${folders[@]}" "${words[@]}" <"$folder/$graph" || exit
    "$program" "${words[@]}" "${saving[@]}" --resume yes --workers "$cores" <"$folder/$graph" >"$folder/report.new" || exit
    mv "$folder/report.new" "$folder/report"
}

case ${1:-} in
    start) rm -f all/before; queue ;;
    walk) walk "$SLURM_ARRAY_TASK_ID" ;;
    gather) gather ;;
    *)
        echo "usage: bash slurm_audit.sh start" >&2
        exit 2
        ;;
esac
