# Words of par2 for bash: commands, options, par files as the base, and files.
_par2_undo()
{
    local command=${COMP_WORDS[1]} word=${COMP_WORDS[COMP_CWORD]} has_base= at
    COMPREPLY=()
    if [[ $COMP_CWORD -eq 1 ]]; then
        COMPREPLY=($(compgen -W "create verify repair purge undo redo" -- "$word"))
        return
    fi
    if [[ $word == -* ]]; then
        case $command in
            create) COMPREPLY=($(compgen -W "-s -c -f --overwrite" -- "$word")) ;;
            repair) COMPREPLY=($(compgen -W "-p" -- "$word")) ;;
        esac
        # a number follows these options, so no blank does
        case ${COMPREPLY[0]-} in -s | -c | -f) compopt -o nospace 2> /dev/null ;; esac
        return
    fi
    for ((at = 2; at < COMP_CWORD; at++)); do
        [[ ${COMP_WORDS[at]} == -* ]] || has_base=yes
    done
    compopt -o filenames 2> /dev/null
    local IFS=$'\n'
    case $command in
        create | verify | repair | purge)
            if [[ ! $has_base ]]; then
                COMPREPLY=($(compgen -f -X '!*.par2' -- "$word"))
            elif [[ $command != purge ]]; then
                COMPREPLY=($(compgen -f -- "$word"))
            fi
            ;;
    esac
}
complete -F _par2_undo par2
