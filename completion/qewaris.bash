# Completes the words of the command qewaris in bash.

# The options of a command.
_qewaris_options() {
    local judged="--strict --no-warnings --stdin-name --json --color --help --version"
    case $1 in
    check) echo "--verbose --quiet $judged" ;;
    show) echo "--service --secrets $judged" ;;
    list) echo "--html --force --quiet $judged" ;;
    move) echo "--service --all --to --skip-unplaced --force --dry-run --quiet $judged" ;;
    explain) echo "--json --color --help --version" ;;
    esac
}

# What may stand behind an option that takes a value.
_qewaris_values() {
    case $1 in
    --service) compgen -W "1 2 3 4 5 6 7 8" -- "$2" ;;
    --color) compgen -W "auto always never" -- "$2" ;;
    --to) _qewaris_files "$2" "" ;;
    --html) _qewaris_files "$2" '\.html$' ;;
    --stdin-name) ;;
    *) return 1 ;;
    esac
}

# The words that `explain` takes: numbers, and the names of warnings.
_qewaris_explained() {
    echo {1..19}
    "${words[0]}" explain 2>/dev/null | sed -n 's/^\([a-z0-9]*-[a-z0-9-]*\) .*/\1/p'
}

# The words before the cursor, as the command will have them. Bash cuts words at = and :, which a file's name may have.
_qewaris_words() {
    local rest=${COMP_LINE:0:COMP_POINT} place blanks word
    words=()
    for ((place = 0; place <= COMP_CWORD; place++)); do
        blanks=${rest%%[! ]*}
        rest=${rest#"$blanks"}
        word=${COMP_WORDS[place]}
        [ "${rest#"$word"}" != "$rest" ] || word=$rest
        rest=${rest#"$word"}
        if [ -n "$blanks" ] || [ "$place" = 0 ]; then
            words+=("$word")
        else
            words[${#words[@]}-1]+=$word
        fi
    done
}

# Offers what the current word may become. Readline replaces only what stands behind the last = or : of it.
_qewaris_offer() {
    local cut=${current%"${current##*[=:]}"}
    mapfile -t COMPREPLY
    COMPREPLY=("${COMPREPLY[@]#"$cut"}")
}

# The files whose names end as the pattern says, and folders.
_qewaris_files() {
    local path=$1
    # A word that was begun with quotation marks or has escapes is taken as the shell will take it.
    case $path in
    *[\"\'\\]*) path=$(printf '%s\n' "$path" | sed "s/[\"']//g; s/\\\\\\(.\\)/\\1/g") ;;
    esac
    compgen -d -- "$path"
    [ -z "$2" ] || compgen -f -- "$path" | grep -E "$2"
}

_qewaris() {
    local words current command previous word
    _qewaris_words
    current=${words[${#words[@]}-1]}
    command=${words[1]}
    COMPREPLY=()
    if [ "${#words[@]}" -le 2 ]; then
        _qewaris_offer < <(compgen -W "check show list move explain help --help --version" -- "$current")
        return
    fi
    previous=${words[${#words[@]}-2]}
    for word in "${words[@]:2:${#words[@]}-3}"; do
        [ "$word" != -- ] || previous=--
    done
    if [ "$previous" != -- ]; then
        case $current in
        --*=*)
            _qewaris_offer < <(_qewaris_values "${current%%=*}" "${current#*=}" | sed "s/^/${current%%=*}=/")
            compopt -o filenames 2>/dev/null
            return
            ;;
        -*)
            _qewaris_offer < <(compgen -W "$(_qewaris_options "$command")" -- "$current")
            return
            ;;
        esac
        if [[ " $(_qewaris_options "$command") " == *" $previous "* ]] && _qewaris_values "$previous" "" >/dev/null; then
            _qewaris_offer < <(_qewaris_values "$previous" "$current")
            compopt -o filenames 2>/dev/null
            return
        fi
    fi
    case $command in
    check | show | list) _qewaris_offer < <(_qewaris_files "$current" '\.(open|psk|config)$') ;;
    move) _qewaris_offer < <(_qewaris_files "$current" '\.config$') ;;
    explain) _qewaris_offer < <(compgen -W "$(_qewaris_explained)" -- "$current") ;;
    help) _qewaris_offer < <(compgen -W "check show list move explain" -- "$current") ;;
    esac
    case $command in check | show | list | move) compopt -o filenames 2>/dev/null ;; esac
}

complete -F _qewaris qewaris ./qewaris
