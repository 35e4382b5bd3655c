#compdef jeldroft
# Completion of jeldroft for zsh. Written by tools/make-completions.
_jeldroft() {
    local -a commands=(
        'generate:Make a table of tests that covers a model'
        'check:Say whether a table and its proof cover a model'
        'shrink:Make a table shorter that covers the same'
        'show:Write a suite in words, as a page, or in another form'
        'lint:Say what is wrong or odd about a model'
        'measure:Measure the coverage of a table'
        'suspect:List the combinations that only failing tests have'
        'sequence:Make orders of events that cover each sequence'
        'import:Make a model file from one in the form of ACTS'
    )
    if (( CURRENT == 2 )); then
        _describe command commands
        return
    fi
    case $words[2] in
        generate)
            _arguments \
                '-t[How many parameters are combined \[default\: 2\]]:N|max:' \
                '--strength[How many parameters are combined \[default\: 2\]]:N|max:' \
                '--seeds[A table of seed tests, whole or partial]:FILE:_files' \
                '-p[Write the proof file]:FILE:_files' \
                '--proof[Write the proof file]:FILE:_files' \
                '--proof-format[The format of the proof file \[default\: 1\]]:1|2:(1 2)' \
                '-f[The form of the table \[default\: tsv\]]:tsv|csv|json|markdown:(tsv csv json markdown)' \
                '--format[The form of the table \[default\: tsv\]]:tsv|csv|json|markdown:(tsv csv json markdown)' \
                '-o[Write this file instead of standard output]:FILE:_files' \
                '--output[Write this file instead of standard output]:FILE:_files' \
                '--shrink[Look for fewer tests with the same coverage]' \
                '--spread[Vary the values of cells that no combination needs]' \
                '--rounds[How many moves are tried for each number of tests \[default\: 10000\]]:N:' \
                '--random[The number of the random choices \[default\: 0\]]:N:' \
                '--shuffle[Shuffle the values by this number]:N:' \
                '--budget[How many nodes the search may visit for one query \[default\: no bound\]]:N:' \
                '--threads[How many threads there are at most \[default\: 1\]]:N:' \
                '--case-sensitive[Names that differ in case alone are different]' \
                '--separator[The delimiter between values \[default\: ,\]]:C:' \
                '--alias-separator[The delimiter between the names of a value \[default\: |\]]:C:' \
                '--invalid-mark[The prefix of an invalid value \[default\: ~\]]:C:' \
                '--delimiter[What stands between the cells of a table that is read \[default\: comma where its name ends with .csv, else tab\]]:tab|comma:(tab comma)' \
                '--no-warnings[Print no warnings]' \
                '-q[Don'\''t print the line that sums up]' \
                '--quiet[Don'\''t print the line that sums up]' \
                '-h[Print help]' \
                '--help[Print help]' \
                '*:file:_files' ;;
        check)
            _arguments \
                '-t[How many parameters are combined \[default\: 2\]]:N|max:' \
                '--strength[How many parameters are combined \[default\: 2\]]:N|max:' \
                '--threads[How many threads there are at most \[default\: 1\]]:N:' \
                '--case-sensitive[Names that differ in case alone are different]' \
                '--separator[The delimiter between values \[default\: ,\]]:C:' \
                '--alias-separator[The delimiter between the names of a value \[default\: |\]]:C:' \
                '--invalid-mark[The prefix of an invalid value \[default\: ~\]]:C:' \
                '--delimiter[What stands between the cells of a table that is read \[default\: comma where its name ends with .csv, else tab\]]:tab|comma:(tab comma)' \
                '-h[Print help]' \
                '--help[Print help]' \
                '*:file:_files' ;;
        shrink)
            _arguments \
                '-t[How many parameters are combined \[default\: 2\]]:N|max:' \
                '--strength[How many parameters are combined \[default\: 2\]]:N|max:' \
                '--seeds[A table of seed tests, whole or partial]:FILE:_files' \
                '-f[The form of the table \[default\: tsv\]]:tsv|csv|json|markdown:(tsv csv json markdown)' \
                '--format[The form of the table \[default\: tsv\]]:tsv|csv|json|markdown:(tsv csv json markdown)' \
                '-o[Write this file instead of standard output]:FILE:_files' \
                '--output[Write this file instead of standard output]:FILE:_files' \
                '--spread[Vary the values of cells that no combination needs]' \
                '--rounds[How many moves are tried for each number of tests \[default\: 10000\]]:N:' \
                '--random[The number of the random choices \[default\: 0\]]:N:' \
                '--budget[How many nodes the search may visit for one query \[default\: no bound\]]:N:' \
                '--case-sensitive[Names that differ in case alone are different]' \
                '--separator[The delimiter between values \[default\: ,\]]:C:' \
                '--alias-separator[The delimiter between the names of a value \[default\: |\]]:C:' \
                '--invalid-mark[The prefix of an invalid value \[default\: ~\]]:C:' \
                '--delimiter[What stands between the cells of a table that is read \[default\: comma where its name ends with .csv, else tab\]]:tab|comma:(tab comma)' \
                '--no-warnings[Print no warnings]' \
                '-q[Don'\''t print the line that sums up]' \
                '--quiet[Don'\''t print the line that sums up]' \
                '-h[Print help]' \
                '--help[Print help]' \
                '*:file:_files' ;;
        show)
            _arguments \
                '-t[How many parameters are combined \[default\: 2\]]:N|max:' \
                '--strength[How many parameters are combined \[default\: 2\]]:N|max:' \
                '-f[The form of the output \[default\: text\]]:tsv|csv|json|markdown|text|html:(tsv csv json markdown text html)' \
                '--format[The form of the output \[default\: text\]]:tsv|csv|json|markdown|text|html:(tsv csv json markdown text html)' \
                '-o[Write this file instead of standard output]:FILE:_files' \
                '--output[Write this file instead of standard output]:FILE:_files' \
                '--threads[How many threads there are at most \[default\: 1\]]:N:' \
                '--case-sensitive[Names that differ in case alone are different]' \
                '--separator[The delimiter between values \[default\: ,\]]:C:' \
                '--alias-separator[The delimiter between the names of a value \[default\: |\]]:C:' \
                '--invalid-mark[The prefix of an invalid value \[default\: ~\]]:C:' \
                '--delimiter[What stands between the cells of a table that is read \[default\: comma where its name ends with .csv, else tab\]]:tab|comma:(tab comma)' \
                '--no-warnings[Print no warnings]' \
                '-h[Print help]' \
                '--help[Print help]' \
                '*:file:_files' ;;
        lint)
            _arguments \
                '--all[Look for constraints that never exclude a test too]' \
                '-f[The form of the findings \[default\: text\]]:text|json:(text json)' \
                '--format[The form of the findings \[default\: text\]]:text|json:(text json)' \
                '--case-sensitive[Names that differ in case alone are different]' \
                '--separator[The delimiter between values \[default\: ,\]]:C:' \
                '--alias-separator[The delimiter between the names of a value \[default\: |\]]:C:' \
                '--invalid-mark[The prefix of an invalid value \[default\: ~\]]:C:' \
                '-h[Print help]' \
                '--help[Print help]' \
                '*:file:_files' ;;
        measure)
            _arguments \
                '-t[How many parameters are combined \[default\: 2\]]:N|max:' \
                '--strength[How many parameters are combined \[default\: 2\]]:N|max:' \
                '-o[Write this file instead of standard output]:FILE:_files' \
                '--output[Write this file instead of standard output]:FILE:_files' \
                '--budget[How many nodes the search may visit for one query \[default\: no bound\]]:N:' \
                '--threads[How many threads there are at most \[default\: 1\]]:N:' \
                '--case-sensitive[Names that differ in case alone are different]' \
                '--separator[The delimiter between values \[default\: ,\]]:C:' \
                '--alias-separator[The delimiter between the names of a value \[default\: |\]]:C:' \
                '--invalid-mark[The prefix of an invalid value \[default\: ~\]]:C:' \
                '--delimiter[What stands between the cells of a table that is read \[default\: comma where its name ends with .csv, else tab\]]:tab|comma:(tab comma)' \
                '-h[Print help]' \
                '--help[Print help]' \
                '*:file:_files' ;;
        suspect)
            _arguments \
                '-t[How many parameters are combined \[default\: 2\]]:N|max:' \
                '--strength[How many parameters are combined \[default\: 2\]]:N|max:' \
                '--result[The column of RESULTS that says pass, fail or skip \[default\: \:result\]]:NAME:' \
                '-o[Write this file instead of standard output]:FILE:_files' \
                '--output[Write this file instead of standard output]:FILE:_files' \
                '--case-sensitive[Names that differ in case alone are different]' \
                '--separator[The delimiter between values \[default\: ,\]]:C:' \
                '--alias-separator[The delimiter between the names of a value \[default\: |\]]:C:' \
                '--invalid-mark[The prefix of an invalid value \[default\: ~\]]:C:' \
                '--delimiter[What stands between the cells of a table that is read \[default\: comma where its name ends with .csv, else tab\]]:tab|comma:(tab comma)' \
                '-h[Print help]' \
                '--help[Print help]' \
                '*:file:_files' ;;
        sequence)
            _arguments \
                '-t[How many events a sequence has \[default\: 2\]]:2|3:(2 3)' \
                '--strength[How many events a sequence has \[default\: 2\]]:2|3:(2 3)' \
                '--check[Check this report instead of generating one]:FILE:_files' \
                '-o[Write this file instead of standard output]:FILE:_files' \
                '--output[Write this file instead of standard output]:FILE:_files' \
                '-h[Print help]' \
                '--help[Print help]' \
                '*:file:_files' ;;
        import)
            _arguments \
                '-o[Write this file instead of standard output]:FILE:_files' \
                '--output[Write this file instead of standard output]:FILE:_files' \
                '--case-sensitive[Names that differ in case alone are different]' \
                '-h[Print help]' \
                '--help[Print help]' \
                '*:file:_files' ;;
    esac
}
_jeldroft "$@"
