# Completion of alcrs for bash. ci/manual.py makes this file of samples/help.

# The words that begin as the one that is typed.
_alcrs_words() {
    local word
    for word in $1; do
        [[ "$word" == "$2"* ]] && COMPREPLY+=("$word")
    done
    return 0
}

# The files whose names begin as the one that is typed.
_alcrs_files() {
    local name
    while IFS= read -r name; do
        COMPREPLY+=("$name")
    done < <(compgen -f -- "$1")
    compopt -o filenames 2>/dev/null
    return 0
}

# What the value of an option is: number, file or words; nothing where it takes none.
_alcrs_value() {
    case "$1" in
        --tsi | --toi | --symbol | --block | --max | --fti-every) echo number ;;
        --picture | --margin | --burst | --places) echo file ;;
        --order) echo blocks rounds ;;
    esac
}

_alcrs() {
    local commands="encode certify convert check drop salvage join decode follow twin show help"
    local typed="${COMP_WORDS[COMP_CWORD]}" before="" given=" " places=0 only_arguments=""
    local options files at word
    COMPREPLY=()
    if [ "$COMP_CWORD" -le 1 ]; then
        _alcrs_words "$commands -h --help -V --version" "$typed"
        return
    fi
    case "${COMP_WORDS[1]}" in
        encode) options="--tsi --toi --symbol --block --max --fti-every --order --no-clobber --quiet --help" files=2 ;;
        certify) options="--tsi --toi --symbol --block --max --no-clobber --quiet --help" files=2 ;;
        convert) options="--tsi --toi --no-clobber --quiet --help" files=2 ;;
        check) options="--tsi --toi --picture --summary --margin --burst --no-clobber --quiet --help" files=3 ;;
        drop) options="--places --no-clobber --quiet --help" files=2 ;;
        salvage) options="--no-clobber --quiet --help" files=2 ;;
        join) options="--turns --no-clobber --quiet --help" files=any ;;
        decode) options="--tsi --toi --no-clobber --quiet --help" files=2 ;;
        follow) options="--tsi --toi --no-clobber --quiet --help" files=2 ;;
        twin) options="--tsi --toi --no-clobber --quiet --help" files=4 ;;
        show) options="--summary --quiet --help" files=1 ;;
        help)
            [ "$COMP_CWORD" -gt 2 ] || _alcrs_words "$commands" "$typed"
            return
            ;;
        *) return ;;
    esac
    # What stands before the word that is typed: options, their values, and arguments.
    for ((at = 2; at < COMP_CWORD; at++)); do
        word="${COMP_WORDS[at]}"
        if [ -n "$only_arguments" ]; then
            places=$((places + 1))
        elif [ "$word" = = ] && [ -n "$before" ]; then
            continue
        elif [ -n "$before" ]; then
            before=""
        elif [ "$word" = -- ]; then
            only_arguments=yes
        elif [[ "$word" == -* ]]; then
            given+="$word "
            [ -z "$(_alcrs_value "$word")" ] || before="$word"
        else
            places=$((places + 1))
        fi
    done
    if [ -n "$before" ]; then
        [ "$typed" != = ] || typed=""
        word="$(_alcrs_value "$before")"
        case "$word" in
            number) ;;
            file) _alcrs_files "$typed" ;;
            *) _alcrs_words "$word" "$typed" ;;
        esac
    elif [ -z "$only_arguments" ] && [[ "$typed" == -* ]]; then
        _alcrs_options "$options" "$given" "$typed"
    elif [ "$files" = any ] || [ "$places" -lt "$files" ]; then
        _alcrs_files "$typed"
    elif [ -z "$only_arguments" ]; then
        _alcrs_options "$options" "$given" "$typed"
    fi
}

# The options that don't stand there already.
_alcrs_options() {
    local option
    for option in $1; do
        [[ "$2" == *" $option "* ]] || _alcrs_words "$option" "$3"
    done
}

complete -F _alcrs alcrs
