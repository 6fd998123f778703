# Completion of bib for bash.

# The keys of a file, which are the last words of the lines that are not fields.
_bib_keys() {
    bib show -- "$1" 2>/dev/null | sed -n 's/^[^ ][^ ]* \([^ ][^ ]*\)$/\1/p'
}

_bib() {
    local key word=${COMP_WORDS[COMP_CWORD]} before=${COMP_WORDS[COMP_CWORD - 1]}
    COMPREPLY=()
    if [ "$COMP_CWORD" -eq 1 ]; then
        mapfile -t COMPREPLY < <(compgen -W 'check show write resolve rows salvage pack unpack --help --version' -- "$word")
        return
    fi
    case $before in
    --allow | --deny) mapfile -t COMPREPLY < <(compgen -W "$(bib check --list | grep '^[a-z]')" -- "$word") ;;
    --verbatim) mapfile -t COMPREPLY < <(compgen -W 'none all names' -- "$word") ;;
    --months) mapfile -t COMPREPLY < <(compgen -W 'none english' -- "$word") ;;
    --strings | --output | -o) mapfile -t COMPREPLY < <(compgen -f -- "$word") ;;
    --color) mapfile -t COMPREPLY < <(compgen -W 'auto always never' -- "$word") ;;
    *)
        case ${COMP_WORDS[1]}:$word in
        check:-*) mapfile -t COMPREPLY < <(compgen -W '--allow --deny --strict --all --no-resolve --list --json --quiet --color --limit --strings --help' -- "$word") ;;
        resolve:-*) mapfile -t COMPREPLY < <(compgen -W '--verbatim --months --salvage --limit --strings --help' -- "$word") ;;
        write:-*) mapfile -t COMPREPLY < <(compgen -W '--only --output --keep --strict --limit --strings --help' -- "$word") ;;
        show:-*) mapfile -t COMPREPLY < <(compgen -W '--places --json --sentence --strict --limit --strings --help' -- "$word") ;;
        show:*)
            if [ "$COMP_CWORD" -eq 2 ]; then
                mapfile -t COMPREPLY < <(compgen -f -- "$word")
            else
                # Not by compgen: it would run what a key may hold, such as $(..).
                while IFS= read -r key; do
                    [[ $key != "$word"* ]] || COMPREPLY+=("$key")
                done < <(_bib_keys "${COMP_WORDS[2]}")
            fi
            ;;
        *) mapfile -t COMPREPLY < <(compgen -f -- "$word") ;;
        esac
        ;;
    esac
}
complete -o filenames -F _bib bib
