# the recording of a pool of workers
bash "$(dirname "$0")/../triage_of_a_million_events/stdin.sh"
