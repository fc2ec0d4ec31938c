# Completion of racebench-screen for bash.

_racebench_screen() {
    local word=${COMP_WORDS[COMP_CWORD]} before=${COMP_WORDS[COMP_CWORD - 1]}
    COMPREPLY=() # a file, which bash completes
    case $before in
        --client | --port) return ;; # a number
        --source) COMPREPLY=($(compgen -d -- "$word")) && return ;;
        --program) COMPREPLY=($(compgen -c -- "$word")) && return ;;
    esac
    if [[ $word == -* ]]; then
        COMPREPLY=($(compgen -W "--client --port --source --known --triage --program --help -h" -- "$word"))
    fi
}
complete -o default -F _racebench_screen racebench-screen
