#!/bin/sh
# Makes a Debian package, pimtree_VERSION_amd64.deb, by dpkg-deb alone.
#
#   tools/package.sh                                 the proved program, crates/pimtree/out/pimtree
#   tools/package.sh --unproved [PROGRAM [FOLDER]]   PROGRAM, else the quick build out/pimtree; the
#                                                    package goes to FOLDER, else to out
#
# All its times are SOURCE_DATE_EPOCH, else that of the last commit: equal files make equal bytes.
set -eu
umask 022
export LC_ALL=C
maintainer='Melgwari <melgwari@pimtree.invalid>'
modules=usr/lib/python3/dist-packages

refuse() {
    echo "package.sh: $1" >&2
    exit 2
}

# Refuses a program that isn't there or is older than a source: check_fresh PROGRAM COMMAND
check_fresh() {
    [ -f "$1" ] || refuse "$1 isn't there: run \`$2\`"
    newer=$(find crates.txt crates/*/src crates/*/specs crates/*/proofs \
        -type f -newer "$1" -print -quit)
    [ -z "$newer" ] || refuse "$newer is newer than $1: run \`$2\`"
}

# Copies a file into the package: put FILE PLACE
put() {
    install -D -m 644 "$1" "$root/$2"
}

put_program() {
    install -D -m 755 "$program" "$root/usr/bin/pimtree"
    if command -v strip > /dev/null; then
        strip -R .comment -R .note "$root/usr/bin/pimtree"
    fi
}

put_documents() {
    for file in README.md CHANGELOG.md docs/*.* examples/*.*; do
        put "$file" "usr/share/doc/pimtree/$file"
    done
    changelog | gzip -9n > "$root/usr/share/doc/pimtree/changelog.gz"
    put man/pimtree.1 usr/share/man/man1/pimtree.1
    gzip -9n "$root/usr/share/man/man1/pimtree.1"
    put completions/pimtree.bash usr/share/bash-completion/completions/pimtree
    put completions/_pimtree usr/share/zsh/vendor-completions/_pimtree
    put completions/pimtree.fish usr/share/fish/vendor_completions.d/pimtree.fish
}

put_python() {
    find python/pimtree -name __pycache__ -prune -o -type f -print | while read -r file; do
        put "$file" "$modules/${file#python/}"
    done
}

# Prints the first section of CHANGELOG.md in the form of debian/changelog.
changelog() {
    printf 'pimtree (%s) unstable; urgency=medium\n\n' "$version"
    awk '/^## / { section++; next } section == 1 && NF { print "  " $0 }' CHANGELOG.md |
        sed 's/^  - /  * /' | fmt -t -w 79
    printf '\n -- %s  %s\n' "$maintainer" "$(date -uRd "@$SOURCE_DATE_EPOCH")"
}

# Writes what dpkg reads of the package. Symbols of the program name the versions of the C library
# that have them. Python's byte code isn't of the package, so prerm removes it.
put_control() {
    libc=$(grep -ao 'GLIBC_[0-9.]*[0-9]' "$program" | sort -uV | tail -1)
    bytes=$(find "$root/usr" -type f -exec cat {} + | wc -c)
    mkdir "$root/DEBIAN"
    cat > "$root/DEBIAN/control" << END
Package: pimtree
Version: $version
Architecture: amd64
Maintainer: $maintainer
Installed-Size: $((bytes / 1024 + 1))
Depends: libc6 (>= ${libc#GLIBC_})
Recommends: python3 (>= 3.9)
Section: net
Priority: optional
Description: explain PIM sparse mode messages and captures
 The program pimtree replays captures of PIM sparse mode (RFC 7761), over IPv4
 and IPv6, through the state machines and timers of a router. It prints what
 the router held, and which packet was the cause of each change. It also checks
 single messages, and compares what two routers ask of their upstream neighbour.
 .
 The Python package pimtree draws traces, writes them into captures as comments,
 traces live links, and speaks PIM for tests.
 .
 $build
END
    (cd "$root" && find usr -type f -print0 | sort -z | xargs -0 md5sum) > "$root/DEBIAN/md5sums"
    install /dev/stdin "$root/DEBIAN/prerm" << END
#!/bin/sh
set -e
find /$modules/pimtree -name __pycache__ -prune -exec rm -r {} +
END
}

top=$(cd "$(dirname "$0")/.." && pwd)
program=${2:+$(realpath -m "$2")}
folder=$(realpath -m "${3:-$top/out}")
build='This program is a quick build, which is not proved.'
cd "$top"
case $#${1-} in
    0)
        program=crates/pimtree/out/pimtree
        build='This program is proved to do what its definitions say.'
        check_fresh "$program" 'cd crates/pimtree && rt run -- --help'
        ;;
    1--unproved)
        program=out/pimtree
        [ -f "$program" ] || tools/quick_build.sh
        check_fresh "$program" tools/quick_build.sh
        ;;
    [23]--unproved) ;;
    *) refuse 'the words are [--unproved [PROGRAM [FOLDER]]]' ;;
esac
version=$("$program" --version 2> /dev/null | sed -n 's/^pimtree \([0-9.]*\)$/\1/p')
[ -n "$version" ] || refuse "$program isn't the program pimtree"
SOURCE_DATE_EPOCH=${SOURCE_DATE_EPOCH:-$(git log -1 --format=%ct 2> /dev/null || echo 0)}
export SOURCE_DATE_EPOCH

root=$(mktemp -d)
trap 'rm -rf "$root"' EXIT
trap 'exit 2' HUP INT TERM
chmod 755 "$root"
put_program
put_documents
put_python
put_control
find "$root" -exec touch -d "@$SOURCE_DATE_EPOCH" {} +
mkdir -p "$folder"
dpkg-deb --root-owner-group -Zxz --build "$root" "$folder/pimtree_${version}_amd64.deb"
