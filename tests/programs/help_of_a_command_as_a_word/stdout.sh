cat "$(dirname "$0")/../help_of_triage/stdout"
