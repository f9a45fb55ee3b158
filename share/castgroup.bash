# Completions of castgroup for bash, made by tests/completions-and-manual from the program's help: `. share/castgroup.bash`.
_castgroup() {
    local word=${COMP_WORDS[COMP_CWORD]} command= before
    for before in "${COMP_WORDS[@]:1:COMP_CWORD-1}"; do
        [[ -n $command || " run judge live merge migrate draw help " != *" $before "* ]] || command=$before
    done
    COMPREPLY=()
    [[ " --draw --from --jobs --record --replay --seed --times --to " != *" $before "* ]] || return
    case $command in
    '') COMPREPLY=($(compgen -W "run judge live merge migrate draw help --explain --terse --help --version" -- "$word")) ;;
    help) COMPREPLY=($(compgen -W "run judge live merge migrate draw help" -- "$word")) ;;
    run) [[ $word != -* ]] || COMPREPLY=($(compgen -W "--explain --terse --help" -- "$word")) ;;
    judge) [[ $word != -* ]] || COMPREPLY=($(compgen -W "--explain --terse --help" -- "$word")) ;;
    live) [[ $word != -* ]] || COMPREPLY=($(compgen -W "--seed --times --jobs --record --replay --draw --progress --explain --terse --help" -- "$word")) ;;
    merge) [[ $word != -* ]] || COMPREPLY=($(compgen -W "--record --replay --draw --explain --terse --help" -- "$word")) ;;
    migrate) [[ $word != -* ]] || COMPREPLY=($(compgen -W "--explain --terse --help" -- "$word")) ;;
    draw) [[ $word != -* ]] || COMPREPLY=($(compgen -W "--from --to --html --explain --terse --help" -- "$word")) ;;
    esac
}
complete -o default -F _castgroup castgroup
