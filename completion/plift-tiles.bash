# Completion of plift-tiles for bash.

_plift_tiles() {
    local offered=
    COMPREPLY=()
    case $COMP_CWORD:${COMP_WORDS[1]}:${COMP_WORDS[COMP_CWORD - 1]} in
    1:*) offered='split left work join status --help --version' ;;
    2:*)
        COMPREPLY=($(compgen -d -- "${COMP_WORDS[2]}"))
        return
        ;;
    *:--depth | *:--part) ;;
    *:split:*) offered='--depth --help' ;;
    *:work:*) offered="--part --help $([ "$COMP_CWORD" != 3 ] || "${COMP_WORDS[0]}" left "${COMP_WORDS[2]}" 2>/dev/null)" ;;
    *:join:*) offered='--partial --help' ;;
    *) offered=--help ;;
    esac
    COMPREPLY=($(compgen -W "$offered" -- "${COMP_WORDS[COMP_CWORD]}"))
}

complete -o default -F _plift_tiles plift-tiles
