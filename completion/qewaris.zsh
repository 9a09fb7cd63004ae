#compdef qewaris
# Completes the words of the command qewaris in zsh.

_qewaris() {
    local context state line
    local -a common=('(-h --help)'{-h,--help}'[show the help]' '(-V --version)'{-V,--version}'[show the version]')
    local -a colour=('--color=[use colour]:when:(auto always never)')
    local -a machine=('--json[print JSON for programs]')
    local -a judged=(
        '(--no-warnings)--strict[take a warning for as bad as a refusal]'
        '(--strict)--no-warnings[print no warnings]'
        '--stdin-name=[call the file on standard input]:name:'
    )
    local -a quiet=('(-q --quiet -v --verbose)'{-q,--quiet}'[print only errors]')
    local -a commands=(
        'check:check files, and the files of folders'
        'show:show the settings of files and their join records'
        'list:list files at a glance, the worst first'
        'move:write the iwd files of ConnMan services'
        'explain:explain a refusal or a warning'
    )
    _arguments -C $common '1:command:->command' '*::word:->word'
    case $state in
    command)
        _describe command commands
        _describe command '(help:show\ the\ help\ of\ a\ command)'
        ;;
    word)
        case $words[1] in
        check)
            _arguments -S $common $colour $machine $judged $quiet \
                '(-v --verbose -q --quiet)'{-v,--verbose}'[print a line for each good and each skipped file too]' \
                '*:file:_files -g "*.(open|psk|config)"'
            ;;
        show)
            _arguments -S $common $colour $machine $judged \
                '*--service=[show one service]:number:(1 2 3 4 5 6 7 8)' \
                '--secrets[show the passphrase or key]' \
                '*:file:_files -g "*.(open|psk|config)"'
            ;;
        list)
            _arguments -S $common $colour $machine $judged $quiet \
                '--html=[write a page]:page:_files -g "*.html"' \
                '--force[overwrite the page if it is there already]' \
                '*:file:_files -g "*.(open|psk|config)"'
            ;;
        move)
            _arguments -S $common $colour $machine $judged $quiet \
                '(--all)*--service=[move one service]:number:(1 2 3 4 5 6 7 8)' \
                '(--service)--all[move all services]' \
                '--to=[write the files into a folder]:folder:_files -/' \
                '--skip-unplaced[leave out the services that iwd has no place for]' \
                '--force[overwrite files that are there already]' \
                '--dry-run[show what would be written]' \
                '*:file:_files -g "*.config"'
            ;;
        explain)
            _arguments -S $common $colour $machine '1:number or warning:_qewaris_explained'
            ;;
        help)
            _describe command commands
            ;;
        esac
        ;;
    esac
}

# The words that `explain` takes: numbers, and the names of warnings.
_qewaris_explained() {
    local -a words=({1..19} ${(f)"$(_call_program warnings qewaris explain | sed -n 's/^\([a-z0-9]*-[a-z0-9-]*\) .*/\1/p')"})
    compadd -- $words
}

_qewaris "$@"
