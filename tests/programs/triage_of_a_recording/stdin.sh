cat "$(dirname "$0")/../../../examples/pdsh.std"
