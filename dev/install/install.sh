#!/bin/sh
# install.sh PREFIX [PROGRAM]: puts net_tool, its manual pages, archives, examples, the package crystal_nets and the
# completion of bash under PREFIX. The program stands in lib/net_tool, and bin/net_tool runs it: it knows help and
# --version, runs the subcommands in Python, and explains a status that the program ends with without a word. PROGRAM is the built program; where it is
# not given, the one that this repository built, or else the released one. DESTDIR, where it is set, stands before
# PREFIX. Nothing is built or proved here.
set -eu
umask 022

fail() {
    echo "install.sh: $1" >&2
    exit "${2:-1}"
}

case ${1:-} in
-h | --help)
    sed -n '2,/^set/{/^#/s/^# //p}' "$0"
    exit 0
    ;;
esac
{ [ $# -eq 1 ] || [ $# -eq 2 ]; } || fail "usage: install.sh PREFIX [PROGRAM]" 2
case $1 in
/*) ;;
*) fail "PREFIX is to begin with /" 2 ;;
esac
top=$(CDPATH='' cd -- "$(dirname -- "$0")/../.." && pwd -P)
to=${DESTDIR:-}$1
program=${2:-$top/crates/net_tool/out/net_tool}
[ $# -eq 2 ] || [ -x "$program" ] || program=$top/release/net_tool
[ -x "$program" ] || fail "$program is not there; './net_tool --prove' builds it"

share=$to/share/net_tool
table=$top/python/crystal_nets/commands.tsv

. "$top/front/words.sh"
install -D -m 755 -- "$program" "$to/lib/net_tool/net_tool"
install -D -m 755 -- "$top/front/installed.sh" "$to/bin/net_tool"
install -D -m 644 -- "$top/front/words.sh" "$share/front/words.sh"
install -d -- "$share/archives" "$share/examples" "$to/share/doc/net_tool" "$to/share/man/man1"
install -m 644 -- "$top"/archives/*.archive "$top"/archives/*.index "$top/archives/README.md" "$share/archives"
for index in "$top"/archives/*.index; do
    install -m 644 -- "${index%.index}.cgd" "$share/archives"
done
install -m 644 -- "$top"/examples/*.c?? "$top"/examples/*.maps "$top"/examples/*.ipynb "$top/examples/README.md" "$share/examples"
install -m 644 -- "$top/README.md" "$top/CHANGELOG.md" "$top/docs/FORMATS.md" "$to/share/doc/net_tool"
install -D -m 644 -- "$top/front/net_tool.bash" "$to/share/bash-completion/completions/net_tool"

# what `net_tool --version` tells
version_of_program "$program" >"$share/VERSION"
chmod 644 "$share/VERSION"

# The package of Python, which the front finds there; names that were commands are links to one script for one release.
(cd "$top/python" && find README.md crystal_nets -name __pycache__ -prune -o -name ".*" -prune -o -type f -print) |
    while read -r file; do
        mode=644
        [ ! -x "$top/python/$file" ] || mode=755
        case $file in
        *.md) install -D -m 644 -- "$top/python/$file" "$to/share/doc/net_tool/python/$(dirname -- "$file").md" ;;
        *) install -D -m "$mode" -- "$top/python/$file" "$share/python/$file" ;;
        esac
    done
install -D -m 755 -- "$top/front/former.sh" "$share/front/former.sh"
cut -f 4 -- "$table" | tr ' ' '\n' | grep . | while read -r name; do
    ln -sf -- ../share/net_tool/front/former.sh "$to/bin/$name"
done

# Manual pages: that of the program, and for each subcommand in Python one of its help.
page=$top/docs/man/net_tool.1 pages=$to/share/man/man1
gzip -9nc -- "$page" >"$pages/net_tool.1.gz"
manual_of() {
    printf '%s\n.Dt %s 1\n.Os\n.Sh NAME\n.Nm %s\n.Nd %s\n.Sh DESCRIPTION\n.Bd -literal\n' \
        "$(sed -n 1p "$page")" "$(echo "$2" | tr a-z A-Z)" "$2" "$3"
    # shellcheck disable=SC2086
    COLUMNS=80 LC_ALL=C PYTHONPATH=$top/python PYTHONDONTWRITEBYTECODE=1 "$python" -m crystal_nets $1 --help </dev/null |
        sed 's/\\/\\e/g; s/^[.'"'"']/\\\&&/'
    printf '.Ed\n.Sh SEE ALSO\n.Xr net_tool 1\n'
}
python=/usr/bin/python3
[ -x "$python" ] || python=python3
! command -v "$python" >/dev/null || while read -r row; do
    words=$(echo "$row" | cut -f 1)
    name=net_tool-$(echo "$words" | tr ' ' -)
    manual_of "$words" "$name" "$(echo "$row" | cut -f 6)" | gzip -9n >"$pages/$name.1.gz"
    for link in $(echo "$row" | cut -f 4); do
        ln -sf -- "$name.1.gz" "$pages/$link.1.gz"
    done
done <"$table"
echo "installed under $to; try: net_tool identify $(quoted "$1/share/net_tool/examples/mystery.cgd")" \
    "--archive $(quoted "$1/share/net_tool/archives/common.archive")"
