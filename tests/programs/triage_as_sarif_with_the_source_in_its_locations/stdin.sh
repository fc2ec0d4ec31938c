# The locations begin with the folder of the code, as those of a program that was compiled above it.
sed 's/|count\.c/|src\/count.c/' "$(dirname "$0")/../triage_as_sarif_with_source/files/count.std"
