#compdef bib
# Completion of bib for zsh.
_bib_lints() {
    local -a names
    names=(${(f)"$(bib check --list | grep '^[a-z]')"})
    _values -s , 'warning' $names
}

# The keys of the file, which are the last words of the lines that are not fields.
_bib_keys() {
    local -a keys
    keys=(${(f)"$(bib show -- $words[2] 2>/dev/null | sed -n 's/^[^ ][^ ]* \([^ ][^ ]*\)$/\1/p')"})
    compadd -a keys
}

_bib() {
    local -a works
    works=(
        'check:what is wrong in each file'
        'show:the entries of a file, or those of some keys, resolved'
        'write:each entry again as BibTeX, resolved'
        'resolve:every value of a file, resolved, for scripts'
        'rows:the rows of a file, read strictly'
        'salvage:the rows of a file, read piece by piece'
        'pack:the rows of a file in seven bytes each'
        'unpack:the rows out of such bytes'
    )
    if (( CURRENT == 2 )); then
        _describe 'work' works
        _arguments '--help[what can be asked]' '--version[the version]'
        return
    fi
    shift words
    (( CURRENT-- ))
    if [[ $words[1] == check ]]; then
        _arguments \
            '*--allow[silences these warnings]:warning:_bib_lints' \
            '*--deny[makes errors of these warnings]:warning:_bib_lints' \
            '--strict[exit status 1 for warnings too]' \
            '--all[shows every warning]' \
            '--no-resolve[leaves out what only resolving refuses]' \
            '--list[explains every warning and error]' \
            '--json[a JSON object for each finding]' \
            '(-q --quiet)'{-q,--quiet}'[no output, only the exit status]' \
            '--color[when to use colour]:when:(auto always never)' \
            '--limit[so many bytes the values of a file come to]:bytes:' \
            '*--strings[lends the definitions of this file]:file:_files' \
            '--help[what can be asked]' \
            '*:file:_files'
    elif [[ $words[1] == resolve ]]; then
        _arguments \
            '--verbatim[which values are verbatim]:which:(none all names)' \
            '--months[the months that are known]:which:(none english)' \
            '--salvage[reads piece by piece]' \
            '--limit[so many bytes the values of a file come to]:bytes:' \
            '*--strings[lends the definitions of this file]:file:_files' \
            '--help[what can be asked]' \
            ':file:_files'
    elif [[ $words[1] == show ]]; then
        _arguments \
            '--places[with lines and columns]' \
            '--json[a JSON object for each entry]' \
            '--sentence[titles in sentence case]' \
            '--strict[exit status 1 for warnings too]' \
            '--limit[so many bytes the values of a file come to]:bytes:' \
            '*--strings[lends the definitions of this file]:file:_files' \
            '--help[what can be asked]' \
            ':file:_files' \
            '*:key:_bib_keys'
    elif [[ $words[1] == write ]]; then
        _arguments \
            '--strict[exit status 1 for warnings too]' \
            '*--only[writes the entries of these keys]:key,..:' \
            '(-o --output)'{-o,--output}'[writes into this file]:file:_files' \
            '--keep[writes a field that cannot be resolved as it stands]' \
            '--limit[so many bytes the values of a file come to]:bytes:' \
            '*--strings[lends the definitions of this file]:file:_files' \
            '--help[what can be asked]' \
            ':file:_files'
    else
        _arguments '--help[what can be asked]' ':file:_files'
    fi
}

_bib "$@"
