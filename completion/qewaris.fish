# Completes the words of the command qewaris in fish.

# Folders, and files whose names end in one of these.
function __qewaris_files
    set -l current (commandline -ct)
    __fish_complete_directories $current ""
    for suffix in $argv
        set -l files $current*$suffix
        printf '%s\n' $files
    end
end

# The words that `explain` takes: numbers, and the names of warnings.
function __qewaris_explained
    seq 19
    qewaris explain 2>/dev/null | string replace -rf '^([a-z0-9]+-[a-z0-9-]+) .*' '$1'
end

set -l commands check show list move explain help
complete -c qewaris -f
complete -c qewaris -n "not __fish_seen_subcommand_from $commands" -a check -d "check files, and the files of folders"
complete -c qewaris -n "not __fish_seen_subcommand_from $commands" -a show -d "show the settings of files and their join records"
complete -c qewaris -n "not __fish_seen_subcommand_from $commands" -a list -d "list files at a glance, the worst first"
complete -c qewaris -n "not __fish_seen_subcommand_from $commands" -a move -d "write the iwd files of ConnMan services"
complete -c qewaris -n "not __fish_seen_subcommand_from $commands" -a explain -d "explain a refusal or a warning"
complete -c qewaris -n "not __fish_seen_subcommand_from $commands" -a help -d "show the help of a command"
complete -c qewaris -s h -l help -d "show the help"
complete -c qewaris -s V -l version -d "show the version"

complete -c qewaris -n "__fish_seen_subcommand_from check show list move explain" -l json -d "print JSON for programs"
complete -c qewaris -n "__fish_seen_subcommand_from check show list move explain" -l color -x -a "auto always never" -d "use colour"
complete -c qewaris -n "__fish_seen_subcommand_from check show list move" -l strict -d "take a warning for as bad as a refusal"
complete -c qewaris -n "__fish_seen_subcommand_from check show list move" -l no-warnings -d "print no warnings"
complete -c qewaris -n "__fish_seen_subcommand_from check show list move" -l stdin-name -x -d "call the file on standard input"
complete -c qewaris -n "__fish_seen_subcommand_from check list move" -s q -l quiet -d "print only errors"
complete -c qewaris -n "__fish_seen_subcommand_from check" -s v -l verbose -d "print a line for each good and each skipped file too"
complete -c qewaris -n "__fish_seen_subcommand_from show move" -l service -x -a "1 2 3 4 5 6 7 8" -d "one service"
complete -c qewaris -n "__fish_seen_subcommand_from show" -l secrets -d "show the passphrase or key"
complete -c qewaris -n "__fish_seen_subcommand_from list" -l html -r -F -d "write a page"
complete -c qewaris -n "__fish_seen_subcommand_from list move" -l force -d "overwrite files that are there already"
complete -c qewaris -n "__fish_seen_subcommand_from move" -l all -d "move all services"
complete -c qewaris -n "__fish_seen_subcommand_from move" -l to -x -a "(__fish_complete_directories)" -d "write the files into a folder"
complete -c qewaris -n "__fish_seen_subcommand_from move" -l skip-unplaced -d "leave out the services that iwd has no place for"
complete -c qewaris -n "__fish_seen_subcommand_from move" -l dry-run -d "show what would be written"

complete -c qewaris -n "__fish_seen_subcommand_from check show list" -k -a "(__qewaris_files .open .psk .config)"
complete -c qewaris -n "__fish_seen_subcommand_from move" -k -a "(__qewaris_files .config)"
complete -c qewaris -n "__fish_seen_subcommand_from explain" -k -a "(__qewaris_explained)"
complete -c qewaris -n "__fish_seen_subcommand_from help" -k -a "check show list move explain"
