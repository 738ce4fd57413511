# Completion of syswcet-draft and syswcet-analyse for bash.

_syswcet_tool() {
    local word=${COMP_WORDS[COMP_CWORD]:-} before=${COMP_WORDS[COMP_CWORD - 1]:-} options
    COMPREPLY=()
    if [ "$before" = --core ]; then
        mapfile -t COMPREPLY < <(compgen -W "ibex_single_cycle ibex_small picorv32 picorv32_barrel picorv32_single_port unit" -- "$word")
        return
    fi
    case ${COMP_WORDS[0]} in
        *draft) options="--core --map --old --old-elf" ;;
        *) options="--init --jobs --out --plan --schedule" ;;
    esac
    if [[ $word == -* ]]; then
        mapfile -t COMPREPLY < <(compgen -W "$options" -- "$word")
    else
        mapfile -t COMPREPLY < <(compgen -f -- "$word")
    fi
}
complete -o filenames -F _syswcet_tool syswcet-draft syswcet-analyse tools/draft tools/analyse
