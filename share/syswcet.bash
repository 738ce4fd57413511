# Completion of syswcet's commands for bash: source this file, or put it into ~/.local/share/bash-completion/completions/syswcet.

# answers with those of the words $1 that begin as the word does, also where a folder has the name of one
_syswcet_words() {
    compopt +o filenames 2>/dev/null
    mapfile -t COMPREPLY < <(compgen -W "$1" -- "$word")
}

_syswcet() {
    local word=${COMP_WORDS[COMP_CWORD]:-} first=${COMP_WORDS[1]:-} second=${COMP_WORDS[2]:-}
    COMPREPLY=()
    case $COMP_CWORD:$first in
        1:*) _syswcet_words "all bound certify check demo loops replay show split trace" ; return ;;
        2:show) _syswcet_words "code oil" ; return ;;
        2:split) _syswcet_words "check find" ; return ;;
        2:trace) _syswcet_words "judge record" ; return ;;
        2:bound | 2:certify | 2:check)
            mapfile -t COMPREPLY < <(compgen -f -X lone -- "$word")
            if [ ${#COMPREPLY[@]} -eq 0 ]; then _syswcet_words lone; return; fi
            mapfile -t -O "${#COMPREPLY[@]}" COMPREPLY < <(compgen -W lone -- "$word")
            return ;;
        *:demo) return ;;
    esac
    case $word:$first:$second in
        -*:bound:* | -*:certify:*) _syswcet_words --pivots ; return ;;
        -*:split:find) _syswcet_words --cuts ; return ;;
    esac
    mapfile -t COMPREPLY < <(compgen -f -- "$word")
}
complete -o filenames -F _syswcet syswcet ./syswcet
