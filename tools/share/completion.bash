# Completion of interproc and its tools for bash.
_interproc() {
    local word=${COMP_WORDS[COMP_CWORD]} before=${COMP_WORDS[COMP_CWORD - 1]} tool=${COMP_WORDS[0]##*/} options
    case $before in
        --delay | --descend) COMPREPLY=($(compgen -W '0 1 2 3 4 8 16 32 64' -- "$word")) && return ;;
        --domain) COMPREPLY=($(compgen -W 'dec full' -- "$word")) && return ;;
        --fail) COMPREPLY=($(compgen -W '1 2 3' -- "$word")) && return ;;
    esac
    options='--delay --descend --full --domain'
    case $tool in
        *explain) options+=' --fail --help --version' ;;
        *summary) options+=' --infix --json --sarif --help --version' ;;
        *diagnose | *page) options+=' --help --version' ;;
    esac
    COMPREPLY=()
    if [[ $word == -* ]]; then
        COMPREPLY=($(compgen -W "$options" -- "$word"))
        return
    fi
    if ((COMP_CWORD == 1)); then
        case $tool in
            interproc) COMPREPLY=($(compgen -W 'replay bench' -- "$word")) ;;
            *explain) COMPREPLY=($(compgen -W 'replay' -- "$word")) ;;
        esac
    fi
    local IFS=$'\n'
    compopt -o filenames 2>/dev/null
    COMPREPLY+=($(compgen -d -- "$word") $(compgen -f -X '!*.spl' -- "$word"))
    [[ ${COMP_WORDS[1]} == replay ]] && COMPREPLY+=($(compgen -f -X '!*.choices' -- "$word"))
}
complete -F _interproc interproc interproc-explain interproc-diagnose interproc-page interproc-summary
