# Completion of the four programs for bash: options by their letters, files behind a colon.

# Names of files: a directory gets its slash, and a space in a name its backslash.
_jeldroft_files() {
    compopt -o filenames
    mapfile -t COMPREPLY < <(compgen -f -- "$1")
}

_jeldroft_options() {
    local word=${COMP_WORDS[COMP_CWORD]} options=$1 files=$2
    # bash parts words at a colon; what stands before it is the word before
    if [[ $word == : || ${COMP_WORDS[COMP_CWORD - 1]} == : ]]; then
        [[ $word == : ]] && word=
        local option=${COMP_WORDS[COMP_CWORD - 1]}
        [[ $option == : ]] && option=${COMP_WORDS[COMP_CWORD - 2]}
        case " $files " in *" $option: "*) _jeldroft_files "$word" ;; esac
        return
    fi
    if [[ $word == /* && COMP_CWORD -gt 1 ]]; then
        COMPREPLY=($(compgen -W "$options" -- "$word"))
        [[ ${COMPREPLY[0]} == *: ]] && compopt -o nospace
    fi
    [[ ${#COMPREPLY[@]} -eq 0 ]] && _jeldroft_files "$word"
}

_pict() {
    _jeldroft_options "/o: /o:max /d: /a: /n: /e: /r /r: /c /s /workers: /budget: /budget:max /proof: /proofformat: /measure: /suspect:" \
        "/e: /proof: /measure: /suspect:"
}
_pictcheck() { _jeldroft_options "/o: /o:max /d: /a: /n: /c /workers:" ""; }
_pictacts() { _jeldroft_options "/c" ""; }
_pictseq() { _jeldroft_options "/t:2 /t:3 /check:" "/check:"; }

complete -F _pict pict
complete -F _pictcheck pictcheck
complete -F _pictacts pictacts
complete -F _pictseq pictseq
