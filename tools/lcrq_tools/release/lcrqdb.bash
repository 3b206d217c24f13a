# Completion of lcrqdb for bash: subcommands, options with their values, and files. `release.py` puts this file
# into the archive. Source it, or put it as `lcrqdb` into a folder of bash-completion.

# Takes words with this beginning: the beginning, then the words.
_lcrqdb_words() {
    mapfile -t COMPREPLY < <(compgen -W "$2" -- "$1")
}

# Takes folders and files with this beginning and this ending: the beginning, then the ending. If there is none,
# it takes all files with the beginning.
_lcrqdb_files() {
    compopt -o filenames 2> /dev/null
    mapfile -t COMPREPLY < <(compgen -d -- "$1"; compgen -f -X "!*.$2" -- "$1")
    [ "${#COMPREPLY[@]}" -gt 0 ] || mapfile -t COMPREPLY < <(compgen -f -- "$1")
}

# Completes the word at the cursor: by the subcommand, the word in front, and the options that are there.
_lcrqdb() {
    local word=${COMP_WORDS[COMP_CWORD]} before=${COMP_WORDS[COMP_CWORD - 1]} given options ending is_file=''
    COMPREPLY=()
    # bash parts `--ring=2` into three words
    if [ "$word" = '=' ]; then word=''
    elif [ "$before" = '=' ]; then before=${COMP_WORDS[COMP_CWORD - 2]}; fi
    if [ "$COMP_CWORD" -eq 1 ]; then _lcrqdb_words "$word" 'run view load help --help --version'; return; fi
    case ${COMP_WORDS[1]} in
        run) options=' --actors --ring --trace --help ' ending=script ;;
        view) options=' --actors --ring --trace --live --history --start --help ' ending=script ;;
        load) options=' --trace --help ' ending=trace ;;
        help) _lcrqdb_words "$word" 'run view load'; return ;;
        *) return ;;
    esac
    for given in "${COMP_WORDS[@]:2:COMP_CWORD - 2}"; do
        case $given in
            --) is_file=yes ;;
            --start) options=${options/ --actors / } options=${options/ --ring / } ;;
            --actors | --ring) options=${options/ --start / } ;;
        esac
        options=${options/ "$given" / }
    done
    case $is_file$before in
        --actors) _lcrqdb_words "$word" '1 2 3 4 5 6 7 8 9 10 11 12 13 14 15 16'; return ;;
        --ring) _lcrqdb_words "$word" '2 4 8'; return ;;
        --start) ending=trace is_file=yes ;;
    esac
    case $is_file$word in
        -*) _lcrqdb_words "$word" "$options" ;;
        *) _lcrqdb_files "$word" "$ending" ;;
    esac
}

complete -F _lcrqdb lcrqdb
