# The same log: only the messages have the locations as they are in the trace.
sed 's/ at count\.c:/ at src\/count.c:/g' "$(dirname "$0")/../triage_as_sarif_with_source/stdout"
