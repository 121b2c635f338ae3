# Completion of `vtl` for bash: `source scripts/completion.bash`.
_vtl() {
    local word=${COMP_WORDS[COMP_CWORD]} before=${COMP_WORDS[COMP_CWORD - 1]} command=${COMP_WORDS[1]} places
    COMPREPLY=()
    if [ "$COMP_CWORD" = 1 ]; then
        mapfile -t COMPREPLY < <(compgen -W 'run sqlrun replay sql check engine lineage format migrate demo lint infer help --help --version' -- "$word")
        return
    fi
    case $before in
        --scale) mapfile -t COMPREPLY < <(compgen -W '0 1 2 3 4 5 6 7 8 9' -- "$word") && return ;;
        --round) mapfile -t COMPREPLY < <(compgen -W 'half_up half_even down' -- "$word") && return ;;
    esac
    case $command in
        run | sqlrun) places=4 ;;
        replay) places=5 ;;
        sql | check | lineage | lint) places=2 ;;
        migrate) places=1 ;;
        *) places=0 ;;
    esac
    if [ "$places" != 0 ] && [ "$COMP_CWORD" -gt $((places + 1)) ]; then
        mapfile -t COMPREPLY < <(compgen -W '--scale --round' -- "$word")
        return
    fi
    compopt -o filenames
    case $command:$COMP_CWORD in
        run:[45] | sqlrun:[45] | replay:[46] | engine:[34] | lint:3) mapfile -t COMPREPLY < <(compgen -d -- "$word") ;;
        run:2 | sqlrun:2 | replay:2 | sql:2 | check:2 | lineage:2 | format:[23]) mapfile -t COMPREPLY < <(compgen -f -X '!*.vtl' -- "$word"; compgen -d -- "$word") ;;
        replay:5) mapfile -t COMPREPLY < <(compgen -f -- "$word") ;;
        engine:2) mapfile -t COMPREPLY < <(compgen -f -X '!*.sql' -- "$word"; compgen -d -- "$word") ;;
        *) mapfile -t COMPREPLY < <(compgen -f -X '!*.csv' -- "$word"; compgen -d -- "$word") ;;
    esac
}
complete -F _vtl vtl ./vtl
