# Completion for bash: source this file. .ci/words compares its options with those of the program.
_tlmsim() {
    local word=$2 before=$3
    if [[ $before == '=' && $COMP_CWORD -ge 2 ]]; then
        before=${COMP_WORDS[COMP_CWORD - 2]}
    elif [[ $word == '=' ]]; then
        before=${COMP_WORDS[COMP_CWORD - 1]}
        word=
    fi
    case $before in
    --order) COMPREPLY=($(compgen -W 'first last seed' -- "$word")) ;;
    --log) COMPREPLY=($(compgen -W 'prints turns' -- "$word")) ;;
    --budget | --seed | --generate) COMPREPLY=() ;;
    --bus) COMPREPLY=($(compgen -f -X '!*.bus' -- "$word") $(compgen -d -- "$word")) ;;
    --format | --order-free) COMPREPLY=($(compgen -f -X '!*.tlm' -- "$word") $(compgen -d -- "$word")) ;;
    --vcd | --choices | --replay) COMPREPLY=($(compgen -f -- "$word")) ;;
    *)
        if [[ $word == -* ]]; then
            COMPREPLY=($(compgen -W '--vcd --budget --order --seed --choices --replay --log --format --order-free --bus --generate' -- "$word"))
        else
            COMPREPLY=($(compgen -f -X '!*.@(tlm|txt)' -- "$word") $(compgen -d -- "$word"))
        fi
        ;;
    esac
}
shopt -s extglob
complete -o filenames -F _tlmsim tlmsim ./tlmsim
