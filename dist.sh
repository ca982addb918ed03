#!/bin/sh
# Makes what is handed to others, in target/dist: `./dist.sh`, after `scripts/archive`.
#   mfs-VERSION-x86_64-linux.tar.gz   what install.sh installs, with README.md and licence; it may be unpacked anywhere
#   mfs-VERSION.tar.gz                the repository's files as last committed, for Rust programs and for those who
#                                     prove it themselves
#   SHA256SUMS                        of both; the first has one of its own files too
# Times are those of the last commit, so that the same files give the same bytes. What install.sh looks at is looked at
# here.
set -eu
root=$(cd "$(dirname "$0")" && pwd)
cd "$root"
version=$(sed -n 's/^version = "\(.*\)"$/\1/p' Cargo.toml)
name=mfs-$version-x86_64-linux
dist=$root/target/dist
made=$(mktemp -d)
trap 'rm -rf "$made"' EXIT
committed=$(git -C "$root" log -1 --format=%ct 2>/dev/null) || committed=${SOURCE_DATE_EPOCH:-0}

# pack FOLDER-NAME: the folder of that name in $made becomes a file in $dist
pack() {
    tar -C "$made" --sort=name --owner=0 --group=0 --numeric-owner --mode=u+rw,go+r,go-w --mtime="@$committed" -cf - "$1" |
        gzip -9n >"$dist/$1.tar.gz"
}

rm -rf "$dist"
mkdir -p "$dist"
DESTDIR='' ./install.sh "$made/$name"
# Unpacked anywhere, the files are found from where mfs.pc is.
# shellcheck disable=SC2016 # a variable of pkg-config
sed 's|^prefix=.*|prefix=${pcfiledir}/../..|' "$made/$name/lib/pkgconfig/mfs.pc" >"$made/mfs.pc"
cat "$made/mfs.pc" >"$made/$name/lib/pkgconfig/mfs.pc"
cp README.md NOTICE LICENSE "$made/$name"
(cd "$made/$name" && find . -type f | LC_ALL=C sort | xargs sha256sum) >"$made/sums"
mv "$made/sums" "$made/$name/SHA256SUMS"
pack "$name"

if git -C "$root" rev-parse HEAD >/dev/null 2>&1; then
    mkdir "$made/mfs-$version"
    git -C "$root" archive HEAD | tar -x -C "$made/mfs-$version"
    pack "mfs-$version"
    [ -z "$(git -C "$root" status --porcelain)" ] ||
        echo 'dist.sh: there are changes that are not committed: they are not in the source' >&2
else
    echo 'dist.sh: this is no git repository, so there is no tarball of the source' >&2
fi
(cd "$dist" && sha256sum -- *.tar.gz >SHA256SUMS && cat SHA256SUMS)
