# Completion of popd for bash.
_popd() {
    local word=${COMP_WORDS[COMP_CWORD]} before=${COMP_WORDS[COMP_CWORD - 1]}
    case $before in
        --connections | --listen) COMPREPLY=(); return ;;
    esac
    case $word in
        -*) mapfile -t COMPREPLY < <(compgen -W '--connections -h --help --listen --rehearse --trace --verbose -V --version' -- "$word") ;;
        *) mapfile -t COMPREPLY < <(compgen -f -- "$word") ;;
    esac
}
complete -o filenames -F _popd popd
