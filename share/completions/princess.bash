# Completions of princess for bash.
_princess() {
    local word=${COMP_WORDS[COMP_CWORD]} before=${COMP_WORDS[COMP_CWORD - 1]} command=${COMP_WORDS[1]}
    COMPREPLY=()
    if [ "$COMP_CWORD" = 1 ]; then
        mapfile -t COMPREPLY < <(compgen -W 'solve check elim find least smt drill help --help --version --quiet --stats --progress --json' -- "$word")
        return
    fi
    [ "$before" = --budget ] && return
    case $command in
        --quiet | --json | --stats | --progress) [ "$COMP_CWORD" = 2 ] && mapfile -t COMPREPLY < <(compgen -W 'solve check elim find least smt drill' -- "$word") && return ;;
    esac
    case $command in --quiet | --json | --stats | --progress) command=${COMP_WORDS[2]} ;; esac
    case $command:$word in
        solve:-*) mapfile -t COMPREPLY < <(compgen -W '--budget --proof --short --proof-to --calculus --counterexample --vacuous --json --stats --progress' -- "$word") ;;
        find:-*) mapfile -t COMPREPLY < <(compgen -W '--budget --proof --proof-to --json --stats --progress' -- "$word") ;;
        smt:-*) mapfile -t COMPREPLY < <(compgen -W '--budget --unused --json --stats --progress' -- "$word") ;;
        elim:-* | least:-* | drill:-*) mapfile -t COMPREPLY < <(compgen -W '--budget --json --stats --progress' -- "$word") ;;
        solve:* | elim:* | find:* | least:* | smt:* | check:*) compopt -o filenames 2>/dev/null; mapfile -t COMPREPLY < <(compgen -f -- "$word") ;;
    esac
}
complete -F _princess princess
