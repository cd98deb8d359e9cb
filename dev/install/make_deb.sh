#!/bin/sh
# make_deb.sh VERSION FOLDER [PROGRAM]: the Debian package crystal-net-tool of the built program and its tools, in
# FOLDER, by dpkg-deb. MAINTAINER is named in it. Its copyright file says that the repository states no licence. With
# SOURCE_DATE_EPOCH the same files give the same package, byte for byte, in any folder and on any day.
set -eu
umask 022

fail() {
    echo "make_deb.sh: $1" >&2
    exit "${2:-1}"
}

case ${1:-} in
-h | --help)
    sed -n '2,/^set/{/^#/s/^# //p}' "$0"
    exit 0
    ;;
esac
{ [ $# -eq 2 ] || [ $# -eq 3 ]; } || fail "usage: make_deb.sh VERSION FOLDER [PROGRAM]" 2
version=$1 folder=$2
here=$(CDPATH='' cd -- "$(dirname -- "$0")" && pwd -P)
program=${3:-$here/../../crates/net_tool/out/net_tool}
SOURCE_DATE_EPOCH=${SOURCE_DATE_EPOCH:-$(date +%s)}
export SOURCE_DATE_EPOCH
export LC_ALL=C
name=crystal-net-tool
maintainer=${MAINTAINER:-Nobody <nobody@example.org>}
for command in dpkg-deb objdump strip; do
    command -v "$command" >/dev/null || fail "$command is not there (apt-get install dpkg-dev binutils)"
done

# the size that a package tells: each file in whole kilobytes, and one for all else, on whatever file system
kilobytes_below() {
    find "$1" \( -type f -printf '%s\n' \) -o -printf '1\n' | awk '{ total += int(($1 + 1023) / 1024) } END { print total }'
}

root=$(mktemp -d)
trap 'rm -rf -- "$root"' EXIT
trap 'exit 129' HUP # the shell removes the folder by no signal of its own
trap 'exit 130' INT
trap 'exit 143' TERM
chmod 755 "$root"
DESTDIR=$root "$here/install.sh" /usr "$program" >/dev/null
rm -f -- "$root"/usr/share/net_tool/archives/rcsr*.archive  # what its owner made is not ours to give
strip --strip-unneeded --remove-section=.comment "$root/usr/lib/net_tool/net_tool"
mv "$root/usr/share/doc/net_tool" "$root/usr/share/doc/$name"
install -m 644 -- "$here/copyright" "$root/usr/share/doc/$name/copyright"
mkdir -p "$root/usr/lib/python3"
mv "$root/usr/share/net_tool/python" "$root/usr/lib/python3/dist-packages"
# a link for the commands, which find the module so in any folder that the package is unpacked into
mkdir "$root/usr/share/net_tool/python"
ln -s ../../../lib/python3/dist-packages/crystal_nets "$root/usr/share/net_tool/python/crystal_nets"

# the newest version of the C library that a symbol of the program asks for
libc=$(objdump -T "$root/usr/lib/net_tool/net_tool" | sed -n 's/.*GLIBC_\([0-9.]*\).*/\1/p' | sort -V | tail -n 1)
mkdir "$root/DEBIAN"
cat >"$root/DEBIAN/control" <<CONTROL
Package: $name
Version: $version
Architecture: $(dpkg --print-architecture)
Maintainer: $maintainer
Installed-Size: $(kilobytes_below "$root/usr")
Section: science
Priority: optional
Depends: libc6 (>= ${libc:-2.34}), python3
Recommends: python3-gemmi, python3-numpy, python3-scipy
Suggests: librsvg2-bin, parallel, python3-flask, python3-networkx, python3-pandas, python3-spglib, slurm-client
Description: tell whether crystal structures have the same underlying net
 net_tool places crystal nets, gives them keys that are equal if and only if
 the nets are isomorphic, and finds the names of nets in an archive. The
 program is proved to do so. Beside it are tools, which are not proved, for
 structure files, pictures and large numbers of nets, the Python module
 crystal_nets, and archives of common nets and of zeolites.
 .
 The program needs a processor of the level x86-64-v2.
CONTROL
# what is compiled for python3 comes and goes with the package
for script in "postinst py3compile" "prerm py3clean"; do
    cat >"$root/DEBIAN/${script% *}" <<SCRIPT
#!/bin/sh
set -e
! command -v ${script#* } >/dev/null || ${script#* } -p $name
SCRIPT
    chmod 755 "$root/DEBIAN/${script% *}"
done
gzip -9n >"$root/usr/share/doc/$name/changelog.gz" <<CHANGES
$name ($version) unstable; urgency=low

  * Made by dev/install/make_deb.sh.

 -- $maintainer  $(date -R -u -d "@$SOURCE_DATE_EPOCH")
CHANGES
chmod 644 "$root/usr/share/doc/$name/changelog.gz"
(cd "$root" && find usr -type f -print0 | LC_ALL=C sort -z | xargs -0 md5sum) >"$root/DEBIAN/md5sums"
mkdir -p "$folder"
# one thread of xz: more of them cut what they compress otherwise
DPKG_DEB_THREADS_MAX=1 dpkg-deb --root-owner-group -Zxz --build "$root" "$folder"
