# Completion in bash for the program digests and its tools. Made by tools/shells.py: edit what that reads.

# Whether a word asks for --check: itself or its beginning, or as a letter among others.
_digests_is_check() {
    case $1 in
        @CHECK@) return 0 ;;
        --*) return 1 ;;
        -*) case ${1%%l*} in *c*) return 0 ;; esac ;;
    esac
    return 1
}

# Whether the next word is the number of bits that this one asks for.
_digests_wants_length() {
    case $1 in
        @LENGTH@) return 0 ;;
        --*) return 1 ;;
        -*l) case ${1#-} in *l*l) return 1 ;; *) return 0 ;; esac ;;
    esac
    return 1
}

# Leaves the word's completions among some texts, each of which ends a word, and no file names. Blanks and newlines
# separate the texts, whatever the user's IFS is.
_digests_among() {
    local IFS=$' \t\n'
    compopt +o default +o bashdefault 2>/dev/null
    mapfile -t COMPREPLY < <(compgen -W "$1" -- "$2")
}

_digests() {
    local first=1 tool=${1##*/} word=$2 checking='' before='' ended='' place earlier
    COMPREPLY=()
    if [[ $tool == digests ]]; then
        if ((COMP_CWORD == 1)); then
            _digests_among '@TOOLS@' "$word"
            return
        fi
        first=2 tool=${COMP_WORDS[1]}
    fi
    # The words before this one; where readline cuts `--length=8` in three, the second is `=`.
    for ((place = first; place < COMP_CWORD; place++)); do
        earlier=${COMP_WORDS[place]}
        if [[ $earlier == = && $before == --l* ]]; then continue; fi
        if [[ $tool == b2sum && -z $ended ]] && _digests_wants_length "$before"; then
            before=''
            continue
        fi
        before=$earlier
        if [[ -n $ended ]]; then continue; fi
        if [[ $earlier == -- ]]; then ended=1; elif _digests_is_check "$earlier"; then checking=1; fi
    done
    if [[ $tool == b2sum && -z $ended ]] && _digests_wants_length "$before"; then
        if [[ $word == = ]]; then word=''; fi
        _digests_among "$(seq 8 8 512)" "$word"
    elif [[ $word == -* && -z $ended ]]; then
        local options='@ALWAYS@'
        if [[ $tool == b2sum ]]; then options+=' @LENGTHS@'; fi
        if [[ -n $checking ]]; then
            options+=' @WITH@'
        elif [[ $tool != anysum ]]; then
            options+=' @WITHOUT@'
        fi
        _digests_among "$options" "$word"
    fi
}

# Where nothing is left in COMPREPLY, the names of files are.
complete -o bashdefault -o default -F _digests \
    digests @NAMES@
