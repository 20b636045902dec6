# Completions of dictcat for bash. Debian's package puts this file where bash-completion finds it; without that package:
#
#   source contrib/completions/dictcat.bash
#
# It offers the commands, the options of serve, files for FILE, INDEX and DICT (no logs; the text beside a named index), and
# for NAME and MEMBER the names that `dictcat list FILE` prints. While a server has FILE open it prints none, and none
# are offered. Ids, titles, places and addresses are the user's own.

_dictcat_names() {
    "${COMP_WORDS[0]}" list "$1" 2>/dev/null </dev/null | cut -d ' ' -f 2
}

_dictcat_files() {
    local IFS=$'\n'
    compopt -o filenames 2>/dev/null
    COMPREPLY=($(compgen -f -X '*-wal' -- "$1"))
}

# Which words a command has, in order; the last one stands for all behind it where it is MEMBER.
_dictcat_words() {
    case $1 in
        create | list | audit | session | serve) echo FILE ;;
        install) echo FILE NAME ID INDEX DICT ;;
        rollback | retire) echo FILE NAME ID ;;
        virtual) echo FILE NAME ID TITLE MEMBER ;;
        place) echo FILE NAME ID PLACE ;;
        plain) echo NAME INDEX DICT ;;
        help) echo COMMAND ;;
    esac
}

_dictcat() {
    local current=${COMP_WORDS[COMP_CWORD]} before=${COMP_WORDS[COMP_CWORD - 1]} word kind file='' index='' at=0 i
    local commands='plain create list audit session install rollback retire virtual place serve help' words
    COMPREPLY=()
    if ((COMP_CWORD == 1)); then
        COMPREPLY=($(compgen -W "$commands --help --version -h -V" -- "$current"))
        return
    fi
    case $before in --dict | --http | --rounds) return ;; esac
    if [[ $current == -* ]]; then
        words='--help -h'
        [[ ${COMP_WORDS[1]} == serve ]] && words+=' --dict --http --rounds'
        COMPREPLY=($(compgen -W "$words" -- "$current"))
        return
    fi
    words=($(_dictcat_words "${COMP_WORDS[1]}"))
    # The place of this word among those that are no options, and what stands in those before it.
    for ((i = 2; i < COMP_CWORD; i++)); do
        word=${COMP_WORDS[i]}
        case $word in
            --dict | --http | --rounds) ((i++)); continue ;;
            -*) continue ;;
        esac
        case ${words[at]:-} in FILE) file=$word ;; INDEX) index=$word ;; esac
        ((++at))
    done
    kind=${words[at]:-}
    if ((at >= ${#words[@]})) && [[ ${words[-1]:-} == MEMBER ]]; then kind=MEMBER; fi
    case $kind in
        FILE | INDEX) _dictcat_files "$current" ;;
        DICT)
            word=${index%.index}.dict
            if [[ $index == *.index && -f $word && $word == "$current"* ]]; then
                compopt -o filenames 2>/dev/null
                COMPREPLY=("$word")
            else
                _dictcat_files "$current"
            fi
            ;;
        NAME | MEMBER) [[ -n $file && -s $file ]] && COMPREPLY=($(compgen -W "$(_dictcat_names "$file")" -- "$current")) ;;
        COMMAND) COMPREPLY=($(compgen -W "$commands" -- "$current")) ;;
    esac
}

complete -F _dictcat dictcat
