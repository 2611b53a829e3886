# Completion of getmail for bash.

# Offers a slash after a folder's name, and no space.
_getmail_folders() {
    local index path
    for index in "${!COMPREPLY[@]}"; do
        path=$1${COMPREPLY[index]}
        if [[ -d ${path/#\~\//$HOME/} ]]; then COMPREPLY[index]+=/; fi
    done
    if [[ ${COMPREPLY[*]} == */ ]]; then compopt -o nospace 2> /dev/null; fi
}

_getmail() {
    local word=${COMP_WORDS[COMP_CWORD]} before=${COMP_WORDS[COMP_CWORD - 1]} dir=$HOME/.getmail index
    case $before in
        -r | --rcfile)
            # A name is looked for in DIR unless it begins with / or ~/.
            if [[ $word == [/~]* ]]; then
                mapfile -t COMPREPLY < <(compgen -f -- "$word")
                _getmail_folders ""
                return
            fi
            for ((index = 1; index < COMP_CWORD - 1; index++)); do
                case ${COMP_WORDS[index]} in -g | --getmaildir) dir=${COMP_WORDS[index + 1]/#\~\//$HOME/} ;; esac
            done
            mapfile -t COMPREPLY < <(cd -- "$dir" 2> /dev/null && shopt -s extglob &&
                compgen -f -X '@(seen-*|told-*|lock|lock-*|stunnel.conf)' -- "$word")
            _getmail_folders "$dir/"
            return ;;
        -g | --getmaildir)
            mapfile -t COMPREPLY < <(compgen -d -- "$word")
            _getmail_folders ""
            return ;;
    esac
    mapfile -t COMPREPLY < <(compgen -W '-a --all -d --delete -g --getmaildir -h --help
        -l --dont-delete -n --new --pretend -q --quiet -r --rcfile --trace --unattended -v --verbose -V --version --why' -- "$word")
}
complete -F _getmail getmail
