# Completion of lazyset's command line for bash: source it, or put it into a folder of bash-completion as `lazyset`.
_lazyset() {
    local word=${COMP_WORDS[COMP_CWORD]} commands="make renew grow copy run serve stop clear info check judge rehearse help"
    case "$COMP_CWORD,${COMP_WORDS[1]}" in
    1,*) mapfile -t COMPREPLY < <(compgen -W "$commands --help --version" -- "$word") ;;
    2,help) mapfile -t COMPREPLY < <(compgen -W "$commands" -- "$word") ;;
    *) _lazyset_words "$word" ;;
    esac
}

# The words of a command.
_lazyset_words() {
    local word=$1 options formats="1 2 3 4"
    case "${COMP_WORDS[1]}" in
    make) options="--format --keys --text --secret --help" ;;
    renew | grow) options="--format --help" formats="2 3 4" ;;
    copy) options="--format --replace --help" formats="2 3 4" ;;
    run) options="--buckets --no-lock --help" ;;
    serve) options="--connections --loops --resp --lines --text --secret --forget --epochs --numbers --sessions --idle --buckets --socket --control --socket-mode --until-eof --standby --rewrite --lease --no-lock --help" ;;
    stop) options="--within --help" ;;
    check) options="--of --keys --help" ;;
    rehearse) options="--buckets --format --help" ;;
    *) options="--help" ;;
    esac
    case "${COMP_WORDS[COMP_CWORD - 1]},$word" in
    --format,*) mapfile -t COMPREPLY < <(compgen -W "$formats" -- "$word") ;;
    --buckets,* | --connections,* | --loops,* | --sessions,* | --idle,* | --forget,* | --epochs,* | --lease,* | --within,*) COMPREPLY=() ;;
    *,-*) mapfile -t COMPREPLY < <(compgen -W "$options" -- "$word") ;;
    *) mapfile -t COMPREPLY < <(compgen -f -- "$word") ;;
    esac
}
complete -o filenames -F _lazyset lazyset
