# Completions of cs_cli for bash. Written by tools/write-reference.
_cs_cli() {
    local word=${COMP_WORDS[COMP_CWORD]#=} words=
    if [ "$COMP_CWORD" -eq 1 ]; then
        mapfile -t COMPREPLY < <(compgen -W "check recover" -- "$word")
        return
    fi
    case ${COMP_WORDS[1]} in
    recover) words="--workers --cut" ;;
    esac
    case ${COMP_WORDS[COMP_CWORD-1]} in
    --cut|--workers) return ;;
    esac
    mapfile -t COMPREPLY < <(compgen -W "$words" -- "$word"; compgen -f -- "$word")
}
complete -o filenames -F _cs_cli cs_cli
