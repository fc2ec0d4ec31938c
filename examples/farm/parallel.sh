#!/bin/sh
# parallel.sh TRACE..
#
# Triages each trace as a job of GNU parallel, and merges the reports. The folder PARTS (parts) then has a report for
# each trace, and merged.txt and merged.json, the one report of all. A trace that is older than its report is not
# triaged again: run the same line after a failure, or with more traces. JOBS (4) is how many jobs run at a time on a
# machine. LOGINS names the machines, as ssh takes them, with commas between; `:` is this one. Then names of traces have
# no blanks, and each machine has rsync. RACEBENCH names the command, which each machine must have.
#
# The status is 0 if all traces were triaged, and 1 if one was not: then nothing is merged. It is 2 if two reports would
# have one name: of traces with one name in two folders, or of `merged.std`.
# shellcheck disable=SC2016 # what is in single quotes is for the shell of a job
set -u
export PARTS="${PARTS:-parts}" RACEBENCH="${RACEBENCH:-racebench}"
# A fault names its file, also in a log.
export RACEBENCH_NOTES=1
if [ $# -eq 0 ]; then
    echo "usage: parallel.sh TRACE.." >&2
    exit 2
fi
case $RACEBENCH in /*) ;; */*) RACEBENCH=$PWD/$RACEBENCH ;; esac
# The names of the reports of the traces in these lines, each trace once.
names() { sort -u | sed 's|.*/||; s|\.std$||; s|$|.json|'; }
# Whether the report of this name is newer than the trace.
is_done() { [ -n "$(find "$PARTS/$1" -newer "$2" 2> /dev/null)" ]; }
twice=$({ echo merged.json && printf '%s\n' "$@" | names; } | sort | uniq -d)
if [ -n "$twice" ]; then
    echo "parallel.sh: two reports would have the name $twice" >&2
    exit 2
fi
mkdir -p "$PARTS" && rm -f "$PARTS/merged.json" "$PARTS/merged.txt" || exit 1
for trace; do
    report=$(printf '%s\n' "$trace" | names)
    if ! is_done "$report" "$trace"; then rm -f "$PARTS/$report" && printf '%s\n' "$trace"; fi
done | sort -u > "$PARTS/missing" || exit 1

# A report is moved to its name when it is whole, so a job that is killed leaves none.
report='{= s|.*/||; s|\.std$||; $_ .= ".json" =}'
job='mkdir -p "$PARTS" && "$RACEBENCH" triage {} --json --apart > "$PARTS"/'$report'.part && mv "$PARTS"/'$report'.part "$PARTS"/'$report
if [ -n "${LOGINS:-}" ]; then
    parallel --jobs "${JOBS:-4}" --retries 3 --sshlogin "$LOGINS" --env PARTS --env RACEBENCH --env RACEBENCH_NOTES --workdir ... \
        --transferfile {} --return "$PARTS/$report" --cleanup "$job" :::: "$PARTS/missing"
else
    parallel --jobs "${JOBS:-4}" --retries 3 "$job" :::: "$PARTS/missing"
fi
status=$?
for trace; do
    if [ $status -ne 0 ] || [ ! -e "$PARTS/$(printf '%s\n' "$trace" | names)" ]; then
        echo "parallel.sh: not all traces were triaged, so nothing is merged" >&2
        exit 1
    fi
done

cd "$PARTS" || exit 1
printf '%s\n' "$@" | names | tr '\n' '\0' > reports
# The arguments of a command have a limit, so a thousand reports are merged at a time.
rm -rf groups && mkdir groups &&
    xargs -0 -n 1000 sh -c '"$RACEBENCH" merge --json "$@" > groups/$$' sh < reports &&
    "$RACEBENCH" merge --json groups/* > merged.json.part && mv merged.json.part merged.json &&
    "$RACEBENCH" merge merged.json > merged.txt || exit 1
