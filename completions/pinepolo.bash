# Completions of pinepolo for bash. Written by tools/write-reference.
_pinepolo() {
    local word=${COMP_WORDS[COMP_CWORD]#=} words=
    if [ "$COMP_CWORD" -eq 1 ]; then
        mapfile -t COMPREPLY < <(compgen -W "check show diagnose drill recover restore undo manifest verify design load dump relayout --help --version" -- "$word")
        return
    fi
    case ${COMP_WORDS[1]} in
    check) words="--k --sites -j --workers -q --quiet --json -h --help" ;;
    show) words="--sites -q --quiet --json --svg -h --help" ;;
    diagnose) words="--at-most --disputes --manifest --sites -j --workers -q --quiet --json -h --help" ;;
    drill) words="--at-most --lose --sites -j --workers -q --quiet --json -h --help" ;;
    recover) words="--sites -j --workers -q --quiet --json -h --help" ;;
    restore) words="-n --dry-run --accept-loss --resume --sites --to -j --workers -q --quiet --json -h --help" ;;
    undo) words="--resume --sites -q --quiet --json -h --help" ;;
    manifest) words="--site --sites -q --quiet --json -h --help" ;;
    verify) words="--manifest --site --sites -q --quiet --json -h --help" ;;
    design) words="--lost --sites -q --quiet --json --svg -h --help" ;;
    load) words="--sites -j --workers -q --quiet --json --records --replace-partial -h --help" ;;
    dump) words="--lost --sites -j --workers -q --quiet --json -h --help" ;;
    relayout) words="--lost --sites --new-sites -j --workers -q --quiet --json --replace-partial -h --help" ;;
    esac
    case ${COMP_WORDS[COMP_CWORD-1]} in
    --at-most|--disputes|--k|--lose|--lost|--records|--site|--to|--workers|-j) return ;;
    --manifest|--new-sites|--sites|--svg|=) words= ;;
    esac
    mapfile -t COMPREPLY < <(compgen -W "$words" -- "$word"; compgen -f -- "$word")
}
complete -o filenames -F _pinepolo pinepolo
