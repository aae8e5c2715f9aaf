# Completion of plift-lab for bash.

_plift_lab() {
    local offered= files=
    COMPREPLY=()
    case $COMP_CWORD:${COMP_WORDS[1]}:${COMP_WORDS[COMP_CWORD - 1]} in
    1:*) offered='verify bounds threshold verdict leaves view picture fit explain --help --version' ;;
    *:--keep | *:--report) files=yes ;;
    *:--bound | *:--calls | *:--cap | *:--coverage | *:--define | *:--depth | *:--drop | *:--formula | *:--from | *:--goal | *:--log | *:--look | *:--model | *:--out | *:--parameter | *:--precision | *:--region | *:--safe | *:--title | *:--width | *:--x | *:--y) ;;
    *:verify:*) offered='--help --goal --formula --cap --region --precision --bound --depth --from --relative --coverage --report --keep --progress --quiet --json' files=yes ;;
    *:bounds:*) offered='--help --goal --formula --cap --region --precision --width --calls --list --keep --progress --quiet --json' files=yes ;;
    *:threshold:*) offered='--help --goal --formula --cap --region --precision --bound --parameter --least --width --depth --relative --keep --progress --quiet --json' files=yes ;;
    *:verdict:*) offered='--help --brief --look --keep --progress --quiet --json' files=yes ;;
    *:leaves:*) offered='--help --csv --json --unknown --decimals' files=yes ;;
    *:view:*) offered='--help --x --y --model --title' files=yes ;;
    *:picture:*) offered='--help --x --y --model' files=yes ;;
    *:fit:*) offered='--help --define --goal --safe --region --relative --round --loops --recount --drop --out --log' files=yes ;;
    *:explain:*) offered='--help' files=yes ;;
    esac
    COMPREPLY=($(compgen -W "$offered" -- "${COMP_WORDS[COMP_CWORD]}"))
    [ -z "$files" ] || [ "${COMP_WORDS[COMP_CWORD]:0:1}" = - ] ||
        COMPREPLY+=($(compgen -f -- "${COMP_WORDS[COMP_CWORD]}"))
}

complete -o filenames -F _plift_lab plift-lab
