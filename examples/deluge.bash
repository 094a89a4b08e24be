# Completes the words of `deluge` in bash: source it. Made of docs/COMMANDS.md by `.ci/manual --page`.
_deluge() {
    local word=${COMP_WORDS[COMP_CWORD]} before=${COMP_WORDS[COMP_CWORD - 1]} verb=${COMP_WORDS[1]} words=""
    if ((COMP_CWORD == 1)); then
        words="replay serve format inject order boot ping dump migrate trial wrap drip check receive base --help --version"
    elif [[ $before == --* ]]; then
        case $verb$before in
        inject--image | order--image | dump--image | check--image) words="0 1 2 3 4 5 6" ;;
        receive--image) words="1 2 3 4 5 6" ;;
        format--form) words="1 2" ;;
        trial--motes) words="2 3 4 5 6 7 8 9 10 11 12 13 14 15 16" ;;
        *) compopt +o default ;;
        esac
    elif [[ $word == -* ]]; then
        case $verb in
        replay) words="--help" ;;
        serve) words="--turns --seed --help" ;;
        format) words="--name --used --form --help" ;;
        inject) words="--image --ver --name --help" ;;
        order) words="--number --image --ver --help" ;;
        boot) words="--help" ;;
        ping) words="--help" ;;
        dump) words="--image --help" ;;
        migrate) words="--help" ;;
        trial) words="--motes --pages --seed --help" ;;
        wrap) words="--help" ;;
        drip) words="--help" ;;
        check) words="--image --root --help" ;;
        receive) words="--image --ver --name --root --help" ;;
        base) words="--id --step --seed --help" ;;
        esac
    elif [[ " trial wrap drip " == *" $verb "* ]]; then
        compopt +o default
    fi
    mapfile -t COMPREPLY < <(compgen -W "$words" -- "$word")
}
complete -o default -F _deluge deluge
