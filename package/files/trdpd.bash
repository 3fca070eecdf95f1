# Completion of trdpd for bash: its words, their options, and the files and folders that these take.

_trdpd_offer() {
    mapfile -t COMPREPLY < <(compgen "$@" -- "${COMP_WORDS[COMP_CWORD]}")
}

_trdpd() {
    COMPREPLY=()
    if [ "$COMP_CWORD" -eq 1 ]; then
        _trdpd_offer -W 'check run daemon serve help --help --version'
        return
    fi
    case ${COMP_WORDS[COMP_CWORD - 1]} in
        --controls)
            compopt -o filenames
            _trdpd_offer -d
            return
            ;;
        --totals | --lease | --turns) return ;;
    esac
    case ${COMP_WORDS[1]}:${COMP_WORDS[COMP_CWORD]} in
        check:-*) _trdpd_offer -W '--controls --help' ;;
        run:-*) _trdpd_offer -W '--help' ;;
        daemon:-*) _trdpd_offer -W '--totals --controls --lease --help' ;;
        serve:-*) _trdpd_offer -W '--turns --controls --lease --help' ;;
        help:*) _trdpd_offer -W 'check run daemon serve' ;;
        *)
            compopt -o filenames
            _trdpd_offer -f
            ;;
    esac
}

complete -F _trdpd trdpd
