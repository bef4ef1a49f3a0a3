# Completion for bash. Use: source docs/desk.bash
_desk() {
    local word=${COMP_WORDS[COMP_CWORD]} before=${COMP_WORDS[COMP_CWORD - 1]} at=1 options
    [ "${COMP_WORDS[1]:-}" != --unproved ] || at=2
    case ${COMP_WORDS[at]:-} in
        table | session | tiers) options="--qrels --measure --level --depth --help" ;;
        certify) options="--qrels --measure --level --depth --all --help" ;;
        verify) options="--qrels --cert --help" ;;
        apply) options="--qrels --sheet --help" ;;
        graded) options="--qrels --measure --greatest --help" ;;
        *) options="--help" ;;
    esac
    if [ "$COMP_CWORD" -eq "$at" ]; then
        mapfile -t COMPREPLY < <(compgen -W "table certify verify session graded tiers merge apply demo help --help --version --unproved" -- "$word")
    elif [ "$before" = --measure ]; then
        mapfile -t COMPREPLY < <(compgen -W "P_5 P_10 P_20 recall_100 recall_1000 Rprec recip_rank map rbp_0.8 rbp_0.95" -- "$word")
    elif [[ $word == -* ]]; then
        mapfile -t COMPREPLY < <(compgen -W "$options" -- "$word")
    else
        mapfile -t COMPREPLY < <(compgen -f -- "$word")
    fi
}
complete -o filenames -F _desk desk
