# Completion of plift and plift-view for bash. Made by tools/tables.py.

_plift_unused() {
    # Of these options those that don't stand on the line yet.
    local option word
    for option; do
        for word in "${COMP_WORDS[@]:1:COMP_CWORD-1}"; do
            [[ $word == "$option" || $word == "$option="* ]] && continue 2
        done
        printf '%s\n' "$option"
    done
}

_plift_offer() {
    COMPREPLY=($(compgen -W "$1" -- "${COMP_WORDS[COMP_CWORD]}"))
}

_plift() {
    local at=1 options=
    [[ ${COMP_WORDS[1]} == --quick && COMP_CWORD -gt 1 ]] && at=2
    COMPREPLY=()
    if ((COMP_CWORD == at)); then
        _plift_offer "verify bounded property cost lumped check migrate refine generate selftest --help --version $( ((at == 1)) && echo --quick)"
        return
    fi
    case ${COMP_WORDS[at]} in
    --help | -h | help)
        ((COMP_CWORD == at + 1)) && _plift_offer 'verify bounded property cost lumped check migrate refine generate selftest'
        return
        ;;
    verify) options='--goal --bound --region --depth --precision --from' ;;
    bounded) options='--goal --bound --steps --region --depth --precision' ;;
    property) options='--formula --region --depth --precision --from' ;;
    cost) options='--goal --reward --budget --cap --region --depth --precision' ;;
    lumped) options='--goal --bound --region --depth --precision' ;;
    refine) options='--depth' ;;
    esac
    if [[ -n $options ]]; then
        case ${COMP_WORDS[COMP_CWORD - 1]} in
        --bound | --budget | --cap | --depth | --formula | --from | --goal | --precision | --region | --reward | --steps | =) ;;
        *) _plift_offer "$(_plift_unused $options --help)" ;;
        esac
    elif ((COMP_CWORD == at + 1)) && [[ " verify bounded property cost lumped check migrate refine generate selftest " == *" ${COMP_WORDS[at]} "* ]]; then
        _plift_offer --help
    fi
}

_plift_view() {
    COMPREPLY=()
    case ${COMP_WORDS[COMP_CWORD - 1]} in
    --x | --y | --at | --summary | --follow | --help | --version | =) ;;
    plift-view | */plift-view) _plift_offer '--x --y --at --summary --follow --help --version --quick' ;;
    --quick) _plift_offer '--x --y --at --summary --follow --help --version' ;;
    *) _plift_offer "$(_plift_unused --x --y) --at" ;;
    esac
}

complete -o default -F _plift plift
complete -o default -F _plift_view plift-view
