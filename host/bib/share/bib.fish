# Completion of bib for fish.
function __bib_lints
    bib check --list | string match -r '^[a-z].*'
end

# The keys of the file, which are the last words of the lines that are not fields.
function __bib_keys
    set -l words (commandline -opc)
    bib show -- $words[3] 2>/dev/null | string replace -rf '^[^ ]+ ([^ ]+)$' '$1'
end

set -l works check show write resolve rows salvage pack unpack
complete -c bib -n "not __fish_seen_subcommand_from $works" -f
complete -c bib -n "not __fish_seen_subcommand_from $works" -a check -d 'What is wrong in each file'
complete -c bib -n "not __fish_seen_subcommand_from $works" -a show -d 'The entries of a file, or those of some keys, resolved'
complete -c bib -n "not __fish_seen_subcommand_from $works" -a write -d 'Each entry again as BibTeX, resolved'
complete -c bib -n "not __fish_seen_subcommand_from $works" -a resolve -d 'Every value of a file, resolved, for scripts'
complete -c bib -n "not __fish_seen_subcommand_from $works" -a rows -d 'The rows of a file, read strictly'
complete -c bib -n "not __fish_seen_subcommand_from $works" -a salvage -d 'The rows of a file, read piece by piece'
complete -c bib -n "not __fish_seen_subcommand_from $works" -a pack -d 'The rows of a file in seven bytes each'
complete -c bib -n "not __fish_seen_subcommand_from $works" -a unpack -d 'The rows out of such bytes'
complete -c bib -n "not __fish_seen_subcommand_from $works" -l version -d 'The version'
complete -c bib -l help -d 'What can be asked'
complete -c bib -n '__fish_seen_subcommand_from check' -l allow -x -a '(__bib_lints)' -d 'Silences these warnings'
complete -c bib -n '__fish_seen_subcommand_from check' -l deny -x -a '(__bib_lints)' -d 'Makes errors of these warnings'
complete -c bib -n '__fish_seen_subcommand_from check show write' -l strict -d 'Exit status 1 for warnings too'
complete -c bib -n '__fish_seen_subcommand_from check' -l all -d 'Shows every warning'
complete -c bib -n '__fish_seen_subcommand_from check' -l no-resolve -d 'Leaves out what only resolving refuses'
complete -c bib -n '__fish_seen_subcommand_from check' -l list -d 'Explains every warning and error'
complete -c bib -n '__fish_seen_subcommand_from check' -l json -d 'A JSON object for each finding'
complete -c bib -n '__fish_seen_subcommand_from check' -s q -l quiet -d 'No output, only the exit status'
complete -c bib -n '__fish_seen_subcommand_from check' -l color -x -a 'auto always never' -d 'When to use colour'
complete -c bib -n '__fish_seen_subcommand_from show; and test (count (commandline -opc)) -ge 3' -f -a '(__bib_keys)' -d 'Key'
complete -c bib -n '__fish_seen_subcommand_from show' -l places -d 'With lines and columns'
complete -c bib -n '__fish_seen_subcommand_from show' -l json -d 'A JSON object for each entry'
complete -c bib -n '__fish_seen_subcommand_from show' -l sentence -d 'Titles in sentence case'
complete -c bib -n '__fish_seen_subcommand_from write' -l only -x -d 'Writes the entries of these keys'
complete -c bib -n '__fish_seen_subcommand_from write' -s o -l output -r -d 'Writes into this file'
complete -c bib -n '__fish_seen_subcommand_from write' -l keep -d 'Writes a field that cannot be resolved as it stands'
complete -c bib -n '__fish_seen_subcommand_from resolve' -l verbatim -x -a 'none all names' -d 'Which values are verbatim'
complete -c bib -n '__fish_seen_subcommand_from resolve' -l months -x -a 'none english' -d 'The months that are known'
complete -c bib -n '__fish_seen_subcommand_from check show write resolve' -l limit -x -d 'So many bytes the values of a file come to'
complete -c bib -n '__fish_seen_subcommand_from check show write resolve' -l strings -r -d 'Lends the definitions of this file'
complete -c bib -n '__fish_seen_subcommand_from resolve' -l salvage -d 'Reads piece by piece'
