# Completion of svnfleet's words in bash: the commands, the options of each, and folders where one is wanted. What is none of
# these, as a file behind <, bash completes.
_svnfleet() {
    local word=${COMP_WORDS[COMP_CWORD]} before=${COMP_WORDS[COMP_CWORD - 1]} options=
    COMPREPLY=()
    if [ "$COMP_CWORD" -eq 1 ]; then
        options='list canon create load dump head mkdir upgrade initialize synchronize copy-revprops info serve fleet --help --version'
        mapfile -t COMPREPLY < <(compgen -W "$options" -- "$word")
        return
    fi
    case $before in
    '<' | '>' | '>>') return ;;
    --uuid | -r | --message | --moment | --token | --port | --connections | --timeout | --root-url | --workers) return ;;
    esac
    case ${COMP_WORDS[1]} in
    list | canon | load) options=--deltas ;;
    create) options=--uuid ;;
    dump) options=-r ;;
    mkdir) options='--message --moment' ;;
    initialize) options=--timeout ;;
    synchronize) options='--steal-lock --deltas --token --timeout' ;;
    copy-revprops) options='-r --token --timeout' ;;
    serve) options='--port --connections --timeout --root-url --browse' ;;
    fleet) options=--workers ;;
    head | upgrade | info) ;;
    *) return ;;
    esac
    if [ "${word:0:1}" = - ]; then
        mapfile -t COMPREPLY < <(compgen -W "$options --help" -- "$word")
    elif [ "${COMP_WORDS[1]}" != list ] && [ "${COMP_WORDS[1]}" != canon ]; then
        compopt -o filenames 2>/dev/null
        mapfile -t COMPREPLY < <(compgen -d -- "$word")
    fi
}
complete -o default -F _svnfleet svnfleet
