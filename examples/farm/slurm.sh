#!/bin/sh
# slurm.sh TRACE..
#
# Triages each trace as a task of an array job of Slurm, and merges the reports in a job that waits for the array. All
# nodes share the folder that it is run in. The folder PARTS (parts) then has a report for each trace, and merged.txt
# and merged.json, the one report of all. It prints the numbers of the two jobs. RACEBENCH names the command on each
# node; OPTIONS are words for both calls of sbatch, as `--partition=short --time=10`.
#
# If a task fails, nothing is merged. Run the same line again: a trace that is older than its report is not triaged
# again. The status is 2 if two reports would have one name: of traces with one name in two folders, or of `merged.std`.
# shellcheck disable=SC2016,SC2086 # single quotes are for the shell of a job; OPTIONS has words
set -u
export PARTS="${PARTS:-parts}" RACEBENCH="${RACEBENCH:-racebench}"
# A fault names its file, also in a log.
export RACEBENCH_NOTES=1
case $RACEBENCH in /*) ;; */*) RACEBENCH=$PWD/$RACEBENCH ;; esac
# The names of the reports of the traces in these lines, each trace once.
names() { sort -u | sed 's|.*/||; s|\.std$||; s|$|.json|'; }
# Whether the report of this name is newer than the trace.
is_done() { [ -n "$(find "$PARTS/$1" -newer "$2" 2> /dev/null)" ]; }

# A task: one trace. A report is moved to its name when it is whole, so a task that is killed leaves none.
if [ "${STEP:-}" = triage ]; then
    trace=$(sed -n "${SLURM_ARRAY_TASK_ID}p" "$PARTS/traces")
    report=$(printf '%s\n' "$trace" | names)
    is_done "$report" "$trace" && exit 0
    "$RACEBENCH" triage "$trace" --json --apart > "$PARTS/$report.$SLURM_JOB_ID" &&
        mv "$PARTS/$report.$SLURM_JOB_ID" "$PARTS/$report"
    exit
fi

# The last job: all reports.
if [ "${STEP:-}" = merge ]; then
    cd "$PARTS" || exit 1
    names < traces | tr '\n' '\0' > reports
    # The arguments of a command have a limit, so a thousand reports are merged at a time.
    rm -rf groups && mkdir groups &&
        xargs -0 -n 1000 sh -c '"$RACEBENCH" merge --json "$@" > groups/$$' sh < reports &&
        "$RACEBENCH" merge --json groups/* > merged.json.part && mv merged.json.part merged.json &&
        "$RACEBENCH" merge merged.json > merged.txt || exit 1
    exit
fi

if [ $# -eq 0 ]; then
    echo "usage: slurm.sh TRACE.." >&2
    exit 2
fi
twice=$({ echo merged.json && printf '%s\n' "$@" | names; } | sort | uniq -d)
if [ -n "$twice" ]; then
    echo "slurm.sh: two reports would have the name $twice" >&2
    exit 2
fi
mkdir -p "$PARTS" && rm -f "$PARTS/merged.json" "$PARTS/merged.txt" || exit 1
printf '%s\n' "$@" > "$PARTS/traces" || exit 1
# A task whose node is lost is put into the queue again.
array=$(STEP=triage sbatch ${OPTIONS:-} --parsable --requeue --array="1-$#" --output="$PARTS/%A-%a.log" "$0") || exit 1
merge=$(STEP=merge sbatch ${OPTIONS:-} --parsable --dependency="afterok:$array" --kill-on-invalid-dep=yes --output="$PARTS/%j.log" "$0") || exit 1
echo "$array $merge"
