# Completes the words of vp in bash.
_vp() {
    local word=${COMP_WORDS[COMP_CWORD]} before=${COMP_WORDS[COMP_CWORD - 1]} command='' options='' it
    for it in "${COMP_WORDS[@]:1:COMP_CWORD-1}"; do
        case $it in receipt | label | list | join | help) command=$it && break ;; esac
    done
    case $command:$before in
    receipt:--width) options='576 384' ;;
    list:--lang) options='receipt label' ;;
    *:--font-?) ;;
    help:*) options='receipt label list join' ;;
    :*) options='receipt label list join help --help --version' ;;
    *)
        # a file, unless an option is begun
        case $command:$word in
        receipt:-*) options='--width --whole --font-a --font-b --help' ;;
        label:-*) options='--whole --font-a --help' ;;
        list:-*) options='--lang --whole --offsets --help' ;;
        join:-*) options='--png --help' ;;
        esac
        ;;
    esac
    COMPREPLY=()
    if [ -n "$options" ]; then
        while IFS= read -r it; do COMPREPLY+=("$it"); done < <(compgen -W "$options" -- "$word")
    else
        compopt -o filenames 2>/dev/null
        while IFS= read -r it; do COMPREPLY+=("$it"); done < <(compgen -f -- "$word")
    fi
}
complete -F _vp vp
