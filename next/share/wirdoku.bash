# shellcheck shell=bash
# Completion of `wirdoku` in bash: commands, the options of each, and the solvers that it knows. Where it has no word, bash offers files.

_wirdoku() {
    local word=${COMP_WORDS[COMP_CWORD]} before=${COMP_WORDS[COMP_CWORD - 1]} words=''
    # bash parts `--solver=minisat` into three words
    if [[ $word == = ]]; then
        word=''
    elif [[ $before == = ]]; then
        before=${COMP_WORDS[COMP_CWORD - 2]}
    fi
    case ${COMP_WORDS[1]} in
    check) words='--up-to --bound --solver --prove --no-prove --timeout --quiet --json --help' ;;
    reach) words='--states --timeout --quiet --json --help' ;;
    walk | decode | encode | explain) words='--json --help' ;;
    size) words='--bound --json --help' ;;
    dimacs) words='--bound --help' ;;
    dot) words='--help' ;;
    esac
    if ((COMP_CWORD == 1)); then
        words='check reach walk size dimacs decode encode explain dot help --help --version'
    elif [[ $before == --solver ]]; then
        words='cadical minisat picosat'
    elif [[ $before == --@(up-to|bound|timeout|states) ]]; then
        words=''
        # a number is no file
        compopt +o default 2>/dev/null
    elif [[ $word != -* ]]; then
        words=''
    fi
    mapfile -t COMPREPLY < <(compgen -W "$words" -- "$word")
}
complete -o default -F _wirdoku wirdoku
