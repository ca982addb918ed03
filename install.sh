#!/bin/sh
# Installs the library and the tool: `./install.sh PREFIX`, after `scripts/archive`. Under PREFIX come
#   lib/libmfs_c.a                    the archive
#   lib/libmfs_c.so.N, libmfs_c.so    the shared library, for those who load it at run time; N is the version of the
#                                     exports, and libmfs_c.so.N the soname
#   lib/pkgconfig/mfs.pc              for `pkg-config --cflags --libs mfs`
#   include/mfs.h, include/mfs_c.h    the headers
#   bin/mfs, share/man/man1/mfs.1     the tool and its page; share/bash-completion/completions/mfs
# DESTDIR is put before PREFIX where files are copied to, and not in what they say. MFS_LIB_DIR names another folder of
# the archive, CC another compiler. Wants cc, and cargo for the tool.
set -eu
say() { printf 'install.sh: %s\n' "$*"; }
die() {
    say "$*" >&2
    exit 1
}

if [ $# -ne 1 ] || [ -z "$1" ]; then die 'usage: install.sh PREFIX'; fi
case $1 in
/*) prefix=$1 ;;
*) prefix=$PWD/$1 ;;
esac
root=$(cd "$(dirname "$0")" && pwd)
archives=${MFS_LIB_DIR:-$root/target/staticlib}
[ -f "$archives/libmfs_c.a" ] ||
    die "no libmfs_c.a in $archives: run \`scripts/archive\` first, or give its folder as MFS_LIB_DIR"
archives=$(cd "$archives" && pwd)
version=$(sed -n 's/^version = "\(.*\)"$/\1/p' "$root/Cargo.toml")
exports=$(sed -n 's/^#define MFS_C_VERSION //p' "$root/include/mfs_c.h")
if [ -z "$version" ] || [ -z "$exports" ]; then die 'Cargo.toml or include/mfs_c.h says no version'; fi
to=${DESTDIR:-}$prefix
made=$(mktemp -d)
trap 'rm -rf "$made"' EXIT

# put MODE FILE PLACE
put() {
    mkdir -p "$to/$(dirname "$3")"
    install -m "$1" "$2" "$to/$3"
    say "$3"
}

put 644 "$archives/libmfs_c.a" lib/libmfs_c.a
put 644 "$root/include/mfs.h" include/mfs.h
put 644 "$root/include/mfs_c.h" include/mfs_c.h
sed -e "s|@PREFIX@|$prefix|" -e "s|@VERSION@|$version|" "$root/mfs.pc.in" >"$made/mfs.pc"
put 644 "$made/mfs.pc" lib/pkgconfig/mfs.pc

# The whole archive in one shared library that shows the exports and nothing else.
shared=libmfs_c.so.$exports
printf '{ global: mfs_c_*; local: *; };\n' >"$made/exports"
"${CC:-cc}" -shared -Wl,--whole-archive "$archives/libmfs_c.a" -Wl,--no-whole-archive -Wl,-soname,"$shared" \
    -Wl,--version-script="$made/exports" -Wl,-z,defs -o "$made/$shared"
put 755 "$made/$shared" "lib/$shared"
ln -sf "$shared" "$to/lib/libmfs_c.so"
say "lib/libmfs_c.so"

if ! [ -f "$root/tool/Cargo.toml" ]; then
    say 'the tool is not here, and is not installed'
elif ! command -v cargo >/dev/null; then
    say 'there is no cargo, so the tool is not built and not installed'
else
    (cd "$root" && MFS_LIB_DIR=$archives cargo build --release --quiet -p mfs-tool --target-dir "$root/target/rust")
    cp "$root/target/rust/release/mfs" "$made/mfs"
    # What is for debuggers names the folder that it was built in.
    if command -v strip >/dev/null; then strip "$made/mfs"; fi
    put 755 "$made/mfs" bin/mfs
    put 644 "$root/tool/man/mfs.1" share/man/man1/mfs.1
    put 644 "$root/tool/completions/mfs.bash" share/bash-completion/completions/mfs
fi
say "version $version is under $to"
