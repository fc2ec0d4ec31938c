cat "$(dirname "$0")/../help/stdout"
