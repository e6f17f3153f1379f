# Completion of bplint for fish.

# The words before the cursor that are no options, without the command and its verb. Option values are left out too.
function __bplint_operands
    set -l previous
    for word in (commandline -opc)[3..-1]
        if not string match -q -- '-?*' $word; and not contains -- "$previous" --limit --limit-bytes --paths-from --files-from
            echo -- $word
        end
        set previous $word
    end
end

# Whether the current word can be a path: the file, and for some verbs a certificate, stand before it.
function __bplint_wants_path
    set -l least 1
    __fish_seen_subcommand_from get print; and set least 2
    __fish_seen_subcommand_from show ls get print; and test (count (__bplint_operands)) -ge $least
    and string match -q -- '/*' (commandline -ct)
end

# The paths of the file: `bplint ls` lists what is below the last step of the current word.
function __bplint_paths
    set -l hex
    contains -- --hex (commandline -opc); or contains -- -x (commandline -opc); and set hex --hex
    set -l parent (string replace -r '/[^/]*$' '' -- (commandline -ct))
    bplint ls $hex -- (__bplint_operands)[1] "$parent" 2>/dev/null | string match '/*'
end

complete -c bplint -n __fish_use_subcommand -f
complete -c bplint -n __fish_use_subcommand -s h -l help -d 'Print help'
complete -c bplint -n __fish_use_subcommand -s V -l version -d 'Print the version'
complete -c bplint -n __fish_use_subcommand -a lint -d 'Says whether each FILE is a sound property list'
complete -c bplint -n __fish_use_subcommand -a show -d 'Prints what lies under each PATH, or the whole'
complete -c bplint -n __fish_use_subcommand -a ls -d 'Lists the members of the value under PATH, or of the whole'
complete -c bplint -n __fish_use_subcommand -a map -d 'Lists objects, gaps and overlaps of FILE in byte order'
complete -c bplint -n __fish_use_subcommand -a textconv -d 'Shows FILE as text, whatever it is, for git diff'
complete -c bplint -n __fish_use_subcommand -a explain -d 'Says what the rule of WORD asks'
complete -c bplint -n __fish_use_subcommand -a certify -d 'Writes a certificate of FILE to OUT'
complete -c bplint -n __fish_use_subcommand -a check -d 'Checks a certificate of FILE'
complete -c bplint -n __fish_use_subcommand -a get -d 'Prints what lies under each PATH, by a certificate'
complete -c bplint -n __fish_use_subcommand -a print -d 'Prints the value under PATH as old-style text, by a certificate'
complete -c bplint -n __fish_use_subcommand -a help -d 'Prints help'
complete -c bplint -n '__fish_seen_subcommand_from lint show ls map certify check get print' -s x -l hex -d 'The files hold hexadecimal text'
complete -c bplint -n '__fish_seen_subcommand_from lint' -s q -l quiet -d 'Print nothing for a good file'
complete -c bplint -n '__fish_seen_subcommand_from lint' -s r -l recursive -d 'Lint what is below a folder'
complete -c bplint -n '__fish_seen_subcommand_from lint' -l summary -d 'Count the files at the end'
complete -c bplint -n '__fish_seen_subcommand_from lint' -l all -d 'Below a folder, look at all files'
complete -c bplint -n '__fish_seen_subcommand_from lint' -l skip-other -d 'Pass over other forms'
complete -c bplint -n '__fish_seen_subcommand_from lint' -s l -l list -d 'Print only the names of files that are not sound'
complete -c bplint -n '__fish_seen_subcommand_from lint' -s 0 -l null -d 'End names with a zero byte'
complete -c bplint -n '__fish_seen_subcommand_from lint' -l files-from -r -d 'Lint the files of a list'
complete -c bplint -n '__fish_seen_subcommand_from lint ls' -l json -d 'Print JSON objects'
complete -c bplint -n '__fish_seen_subcommand_from show get' -l paths-from -r -d 'Take the paths of a list'
complete -c bplint -n '__fish_seen_subcommand_from show ls' -l utf8 -d 'Write texts in UTF-8'
complete -c bplint -n '__fish_seen_subcommand_from show ls' -l readable -d 'Write values as people read them'
complete -c bplint -n '__fish_seen_subcommand_from show ls' -l files-from -r -d 'Take the files of a list'
complete -c bplint -n '__fish_seen_subcommand_from certify' -l force -d 'Replace a property list'
complete -c bplint -n '__fish_seen_subcommand_from lint show ls map textconv certify check get print' -s H -l with-filename -d 'Begin each line with its file'
complete -c bplint -n '__fish_seen_subcommand_from lint show ls map textconv certify check get print' -l explain -f -a 'always never auto' -d 'Say more below a fault'
complete -c bplint -n '__fish_seen_subcommand_from show' -l text -d 'Print old-style text'
complete -c bplint -n '__fish_seen_subcommand_from show' -l limit -x -d 'Bytes of text at most'
complete -c bplint -n '__fish_seen_subcommand_from show' -l raw -d 'Write the bytes of data or a text'
complete -c bplint -n '__fish_seen_subcommand_from map' -l paths -d 'Add the path to each object'
complete -c bplint -n '__fish_seen_subcommand_from ls' -s R -l recursive -d 'List what is in the members too'
complete -c bplint -n '__fish_seen_subcommand_from ls' -l limit -x -d 'Nodes at most'
complete -c bplint -n '__fish_seen_subcommand_from ls' -l limit-bytes -x -d 'Bytes of lines at most'
complete -c bplint -n '__fish_seen_subcommand_from ls' -l objects -d 'Add the number and place of each object'
complete -c bplint -n '__fish_seen_subcommand_from ls' -l sort -d 'Sort the keys of dictionaries'
complete -c bplint -n '__fish_seen_subcommand_from ls' -l tree -d 'Print an indented tree'
complete -c bplint -n '__fish_seen_subcommand_from certify' -l sorted -d 'Write sorted keys'
complete -c bplint -n '__fish_seen_subcommand_from lint show ls map textconv explain certify check get print' -s h -l help -d 'Print help'
complete -c bplint -n '__fish_seen_subcommand_from explain' -f -a 'TooLarge TooShort Magic NoObjects Top TableEarly TableLate OffsetSize RefSize Length RefNarrow OffsetNarrow OffsetHigh OffsetLow Marker Count Extent NotAscii UidLarge RefHigh KeyKind KeyTwice Circle CertMagic CertLength CertCount TopNotVouched ChildNotVouched HeightNotLess PathText Overfull KeyOrder'
complete -c bplint -n '__fish_seen_subcommand_from help' -f -a 'lint show ls map textconv explain certify check get print'
complete -c bplint -n __bplint_wants_path -f -a '(__bplint_paths)'
