# Completion of jeldroft for bash. Written by tools/make-completions.
_jeldroft() {
    local word=${COMP_WORDS[COMP_CWORD]} before=${COMP_WORDS[COMP_CWORD - 1]} options= values=
    if [[ $COMP_CWORD -eq 1 ]]; then
        COMPREPLY=($(compgen -W "generate check shrink show lint measure suspect sequence import --help --version" -- "$word"))
        return
    fi
    case ${COMP_WORDS[1]} in
        generate) options="--strength --seeds --proof --proof-format --format --output --shrink --spread --rounds --random --shuffle --budget --threads --case-sensitive --separator --alias-separator --invalid-mark --delimiter --no-warnings --quiet --help" ;;
        check) options="--strength --threads --case-sensitive --separator --alias-separator --invalid-mark --delimiter --help" ;;
        shrink) options="--strength --seeds --format --output --spread --rounds --random --budget --case-sensitive --separator --alias-separator --invalid-mark --delimiter --no-warnings --quiet --help" ;;
        show) options="--strength --format --output --threads --case-sensitive --separator --alias-separator --invalid-mark --delimiter --no-warnings --help" ;;
        lint) options="--all --format --case-sensitive --separator --alias-separator --invalid-mark --help" ;;
        measure) options="--strength --output --budget --threads --case-sensitive --separator --alias-separator --invalid-mark --delimiter --help" ;;
        suspect) options="--strength --result --output --case-sensitive --separator --alias-separator --invalid-mark --delimiter --help" ;;
        sequence) options="--strength --check --output --help" ;;
        import) options="--output --case-sensitive --help" ;;
    esac
    case $before in
        --alias-separator) values="" ;;
        --budget) values="" ;;
        --check) values="" ;;
        --delimiter) values="comma tab" ;;
        --format|-f) values="csv html json markdown text tsv" ;;
        --invalid-mark) values="" ;;
        --output|-o) values="" ;;
        --proof-format) values="1 2" ;;
        --proof|-p) values="" ;;
        --random) values="" ;;
        --result) values="" ;;
        --rounds) values="" ;;
        --seeds) values="" ;;
        --separator) values="" ;;
        --shuffle) values="" ;;
        --strength|-t) values="2 3" ;;
        --threads) values="" ;;
        *) values=none ;;
    esac
    if [[ $word == -* && $values == none ]]; then
        COMPREPLY=($(compgen -W "$options" -- "$word"))
    elif [[ $values != none && -n $values ]]; then
        COMPREPLY=($(compgen -W "$values" -- "$word"))
    else
        compopt -o filenames
        mapfile -t COMPREPLY < <(compgen -f -- "$word")
    fi
}
complete -F _jeldroft jeldroft
