# Completion of the command line of cq, for bash.
_cq() {
    local word=${COMP_WORDS[COMP_CWORD]}
    case ${COMP_WORDS[1]} in
    replay) COMPREPLY=($(compgen -W "--servers --help" -- "$word")) ;;
    live) COMPREPLY=($(compgen -W "--servers --turns --help" -- "$word")) ;;
    watch) COMPREPLY=($(compgen -W "--servers --help" -- "$word")) ;;
    explain) COMPREPLY=($(compgen -W "--servers --live --help" -- "$word")) ;;
    session)
        if [ "${COMP_WORDS[COMP_CWORD - 1]}" = --journal ]; then
            COMPREPLY=($(compgen -f -- "$word"))
        else
            COMPREPLY=($(compgen -W "--servers --journal --journal-size --two-syncs --tell-store --help" -- "$word"))
        fi
        ;;
    server)
        if [ "${COMP_WORDS[COMP_CWORD - 1]}" = --journal ]; then
            COMPREPLY=($(compgen -f -- "$word"))
        else
            COMPREPLY=($(compgen -W "--id --first --joining --load --journal --journal-size --no-create --wire --help" -- "$word"))
        fi
        ;;
    master) COMPREPLY=($(compgen -W "--servers --wire --help" -- "$word")) ;;
    verify | copy | dump) COMPREPLY=($(compgen -f -- "$word") $(compgen -W "--help" -- "$word")) ;;
    *) [ "$COMP_CWORD" -gt 1 ] || COMPREPLY=($(compgen -W "replay session live watch explain verify copy dump server master help --help --version" -- "$word")) ;;
    esac
}
complete -F _cq cq
