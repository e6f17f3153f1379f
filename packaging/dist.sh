#!/bin/sh
# dist.sh FOLDER: writes the archives, the Debian packages and SHA256SUMS into FOLDER, which has the wheel. `make dist`
# runs it on what `make build lib` built, and sets SOURCE_DATE_EPOCH.
set -eu
umask 022
export LC_ALL=C
cd "$(dirname "$0")/.."
top=$PWD
version=$(cat VERSION)
mkdir -p "$1"
dist=$(realpath "$1")
work=$(mktemp -d)
trap 'rm -rf "$work"' EXIT
rm -f "$dist"/bplint-*.tar.gz "$dist"/*.deb "$dist/SHA256SUMS"

# Packs a folder of $work into an archive, the same bytes each time.
pack() {
  tar --create --directory="$work" --sort=name --format=ustar --owner=0 --group=0 --numeric-owner --mode=u=rwX,go=rX \
    --mtime="@$SOURCE_DATE_EPOCH" "$1" | gzip -n9 >"$dist/$1.tar.gz"
}

# The archive. bplist.pc finds its folders from where it lies.
name=bplint-$version-$(uname -m)-linux
archive=$work/$name
make -s -o build -o lib install PREFIX="$archive" MADE="$work/folders"
sed -i 's|^prefix=.*|prefix=${pcfiledir}/../..|' "$archive/lib/pkgconfig/bplist.pc"
strip --strip-unneeded "$archive/bin/bplint" "$archive/lib/libbplist.so.0"
# README.md links to these pages. What they say of files that only the repository has is no link here.
cp -r README.md CHANGELOG.md CONTRIBUTING.md SECURITY.md docs LICENSE packaging/debian/copyright examples "$archive"
python3 -B packaging/plain_links.py "$archive"
pack "$name"

# The test suite for other readers.
suite=bplint-conformance-$version
mkdir "$work/$suite"
cp -r conformance/README.md conformance/LICENSE conformance/run.py conformance/cases.tsv conformance/files "$work/$suite"
python3 -B packaging/plain_links.py "$work/$suite"
pack "$suite"

# The packages. Their changelog is this version's part of CHANGELOG.md. bplint has the pages, libbplist-dev the guide.
mkdir -p "$work/source/pages" "$work/source/guide"
cp -r packaging/debian examples "$work/source"
cp -r README.md SECURITY.md docs "$work/source/pages"
cp docs/LIBRARY.md "$work/source/guide"
python3 -B packaging/plain_links.py "$work/source/pages"
python3 -B packaging/plain_links.py "$work/source/guide"
cd "$work/source"
{
  printf 'bplint (%s) unstable; urgency=medium\n\n' "$version"
  sed -n "/^## $version\$/,/^## / { s/^- /  * /p; t; s/^  /    /p }" "$top/CHANGELOG.md" |
    fmt -t -w 75 | sed 's/^ *\([^ *]\)/    \1/'
  printf '\n -- %s  %s\n' "$(sed -n 's/^Maintainer: //p' debian/control)" "$(date -uR -d "@$SOURCE_DATE_EPOCH")"
} >debian/changelog
TOP=$top ARCHIVE=$archive debian/rules binary
cp ../*.deb "$dist"

cd "$dist"
sha256sum -- *.* >SHA256SUMS
