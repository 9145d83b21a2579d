# Completions of tilesolve for bash: source this file, or put it into bash-completion's folder.

_tilesolve() {
    local word=${COMP_WORDS[COMP_CWORD]} before=${COMP_WORDS[COMP_CWORD - 1]} words=
    local options='--rows --cols --cost --goal --groups --fold --workers --spread --limit'
    # If COMP_WORDBREAKS contains an equals sign, an option and its value are three words.
    if [[ $word == = ]]; then
        word=
    elif [[ $before == = ]]; then
        before=${COMP_WORDS[COMP_CWORD - 2]}
    fi
    case $before in
    --rows | --cols) words='2 3 4 5' ;;
    --cost) words='unit face' ;;
    --groups) words='none' ;;
    --spread) words='zobrist blank abstract' ;;
    --goal | --workers | --limit | --width | --seconds | --count | --seed | --moves) ;;
    *[\<\>]) compopt -o default ;;
    tilesolve | */tilesolve) words='solve check show upgrade replay boards --help --version' ;;
    *)
        case ${COMP_WORDS[1]} in
        solve) words="$options --cert --progress --stats --help" ;;
        replay) words="$options --help" ;;
        show) words='--width --svg --seconds --help' ;;
        boards) words='--rows --cols --goal --count --seed --moves --all --help' ;;
        check | upgrade) words='--help' ;;
        esac
        ;;
    esac
    mapfile -t COMPREPLY < <(compgen -W "$words" -- "$word")
}

complete -F _tilesolve tilesolve
