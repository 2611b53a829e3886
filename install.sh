#!/bin/sh
# Installs getmail and popd from this folder, which has their programs in bin/.
#
#   ./install.sh                        into /usr/local
#   PREFIX=$HOME/.local ./install.sh    into another place
#   ./install.sh --remove               takes away what was installed, with the same PREFIX
#
# With DESTDIR every file goes below that folder. Nothing but these files is written, and a temporary folder that goes at the end.
set -eu
umask 022
# With CDPATH, `cd` may go to another folder of that name.
CDPATH='' cd -- "$(dirname -- "$0")"

prefix=${PREFIX:-/usr/local}
prefix=${prefix%/}
case $prefix in
    /*) ;;
    *) echo "install.sh: PREFIX is a full path, and not $prefix" >&2; exit 2 ;;
esac
place=${DESTDIR:-}$prefix
share=$place/share
docs=$share/doc/getmail
# What the documents name as it lies here, and is installed beside them.
beside='\(docs\|examples\)/\(FROM-GETMAIL6\.md\|getmailrc\.sample\|stunnel\.conf\|[a-z0-9_-]*\.py\)'
# systemd looks for units in ~/.local/share, and not in ~/.local/lib.
case $prefix in
    "${HOME:-}/.local") units=$share/systemd/user ;;
    *) units=$place/lib/systemd/user ;;
esac

case ${1:-} in
    "" | --remove) ;;
    *) sed -n '2,8s/^# \{0,1\}//p' "$0" >&2; exit 2 ;;
esac

if [ "${1:-}" != --remove ]; then
    for name in getmail popd; do
        [ -f "bin/$name" ] || { echo "install.sh: bin/$name is not there: \`make\` builds it, and archives have it" >&2; exit 2; }
    done
    case $prefix in
        *[[:space:][:cntrl:]\\\"\'\`\$\&\|\;\<\>\(\)\*\?\[\]\{\}\#%:!]*)
            echo "install.sh: PREFIX has a space, or a letter that means something in units, crontabs or man pages: $prefix" >&2
            exit 2 ;;
    esac
    made=$(mktemp -d)
    trap 'rm -rf "$made"' EXIT
    trap 'exit 1' HUP INT TERM
fi

# placed MODE PLACE COMMAND: what the command prints takes the place of what is there, as a whole. If that is a link, what it
# leads to stays, and if it is a program that runs, it runs on. The file gets its mode in a folder of this script's own: where
# another user may write, a link may come into its place at any moment, which `cp` and `mv` don't follow so.
placed() {
    mode=$1 target=$2
    shift 2
    mkdir -p "$(dirname "$target")"
    "$@" >"$made/file"
    chmod "$mode" "$made/file"
    cp -T --remove-destination "$made/file" "$target.new"
    mv -fT "$target.new" "$target"
}

# put MODE FILE PLACE
put() {
    placed "$1" "$3" cat "$2"
}

# put_named FILE PLACE: a file that names the programs' folder gets the PREFIX; with /usr, PATH names it once. The files
# beside it get their full paths.
put_named() {
    placed 644 "$2" sed "s|/usr/local/|$prefix/|g; s|/usr/bin:/usr/bin|/usr/bin|; s#\<$beside#$prefix/share/doc/getmail/\\2#g" "$1"
}

# remove FILE PLACE
remove() {
    rm -f "$2" "$2.new"
}

# each_file HOW HOW_NAMED: calls HOW for each file as it is, HOW_NAMED for each that names the programs' folder
each_file() {
    for name in getmail popd; do
        "$1" 755 "bin/$name" "$place/bin/$name"
        "$1" 644 "completions/$name.bash" "$share/bash-completion/completions/$name"
        "$1" 644 "completions/_$name" "$share/zsh/site-functions/_$name"
        "$1" 644 "completions/$name.fish" "$share/fish/vendor_completions.d/$name.fish"
    done
    for page in man/*.[1-8]; do
        "$2" "$page" "$share/man/man${page##*.}/$(basename "$page")"
    done
    for unit in examples/*.service examples/*.timer examples/*.socket; do
        "$2" "$unit" "$units/$(basename "$unit")"
    done
    for file in README.md CHANGELOG.md docs/FROM-GETMAIL6.md docs/getmailrc.sample examples/stunnel.conf; do
        "$2" "$file" "$docs/$(basename "$file")"
    done
    for file in LICENSE NOTICES; do
        "$1" 644 "$file" "$docs/$file"
    done
    for script in examples/*.py; do
        mode=644
        [ ! -x "$script" ] || mode=755
        "$1" $mode "$script" "$docs/$(basename "$script")"
    done
    "$2" examples/crontab "$docs/crontab"
}

remove_first() {
    rm -f "$3" "$3.new"
}

if [ "${1:-}" = --remove ]; then
    cat <<'END'
What a user has enabled goes on, and fails. Each user has to disable these units, by `systemctl --user disable --now UNIT`:
    getmail.timer getmail@FILE.timer getmail-tunnel.socket popd.service popd.socket
and to take the lines of getmail out of `crontab -e`.
END
    each_file remove_first remove
    rmdir "$docs" 2>/dev/null || true
else
    each_file put put_named
fi
