#!/bin/sh
# Makes the Debian packages bin/NAME_VERSION_ARCHITECTURE.deb of what is in bin/: sulderko of the
# programs; of the library, where it is there, libsulderko1, libsulderko-dev and python3-sulderko.
#
#     build.sh VERSION        after make build, and make library
#
# The same programs make the same bytes: every file has the time of the changelog's newest entry.
set -eu
umask 022
top=$(cd "$(dirname "$0")/.." && pwd)
here=$top/packaging/debian
room=$(mktemp -d)
trap 'rm -rf "$room"' EXIT
all=$room/all/usr

version=$(sed -n '1s/^sulderko (\(.*\)) .*/\1/p' "$here/changelog")
test "$version" = "$1" || { echo "build.sh: the changelog is of $version, VERSION of $1"; exit 1; }
signed=$(sed -n 's/^ -- //p' "$here/changelog" | head -n 1)
SOURCE_DATE_EPOCH=$(date -d "${signed#*>}" +%s)
export SOURCE_DATE_EPOCH
machine=$(dpkg --print-architecture)
libraries=lib/$(dpkg-architecture -q DEB_HOST_MULTIARCH)

# Moves files out of what was installed into the root of a package.
take() {
  package=$1
  shift
  for path in "$@"; do
    mkdir -p "$room/debian/$package/usr/$(dirname "$path")"
    mv "$all/$path" "$room/debian/$package/usr/$path"
  done
}

# What the files of a package need at run time, as the loader has it.
needs() {
  printf 'Source: sulderko\n\nPackage: %s\nArchitecture: any\n' "$1" > "$room/debian/control"
  shift
  (cd "$room" && dpkg-shlibdeps -O "$@" > "$room/needed")
  sed -n 's/^shlibs:Depends=/Depends: /p' "$room/needed"
}

# Gives a package its papers and its control file, where the rest says what it needs, and packs it.
pack() {
  package=$1
  root=$room/debian/$package
  books=$root/usr/share/doc/$package
  kind=$(sed -n 's/^Architecture: //p' "$here/packages/$package.in")
  test "$kind" = all || kind=$machine
  mkdir -p "$books" "$root/DEBIAN"
  cp "$here/copyright" "$books/copyright"
  cp "$here/changelog" "$books/changelog"
  for folder in "$books" "$root/usr/share/man"; do
    test ! -d "$folder" ||
      find "$folder" \( -name '*.md' -o -name '*.[13]' -o -name changelog \) -exec gzip -9n {} +
  done
  sed "s/@VERSION@/$version/; s/@ARCHITECTURE@/$machine/; s/@MAINTAINER@/${signed%  *}/
    s/@SIZE@/$(du -k -s --apparent-size "$root/usr" | cut -f 1)/; s/^@DEPENDS@\$/${2:-}/; /^\$/d" \
    "$here/packages/$package.in" > "$root/DEBIAN/control"
  (cd "$root" && find usr -type f | LC_ALL=C sort | xargs md5sum > DEBIAN/md5sums)
  find "$root" -exec touch -h -d "@$SOURCE_DATE_EPOCH" {} +
  dpkg-deb --root-owner-group --build "$root" "$top/bin/${package}_${version}_$kind.deb"
}

pack_library() {
  shared=$libraries/libsulderko.so.1
  take libsulderko1 "$shared"
  take libsulderko-dev include/sulderko.h "$libraries/libsulderko.a" "$libraries/libsulderko.so" \
    "$libraries/pkgconfig/sulderko.pc" share/man/man3/sulderko.3 share/doc/sulderko/LIBRARY.md
  take python3-sulderko lib/python3/dist-packages/sulderko
  rmdir "$all/lib/python3/dist-packages" "$all/lib/python3"
  mkdir -p "$room/debian/libsulderko1/DEBIAN"
  dev=$room/debian/libsulderko-dev/usr
  mkdir -p "$dev/share/doc/libsulderko-dev"
  mv "$dev/share/doc/sulderko/LIBRARY.md" "$dev/share/doc/libsulderko-dev"
  rmdir "$dev/share/doc/sulderko"
  set -- "$room/debian/libsulderko1/usr/$shared"
  strip --strip-unneeded --remove-section=.comment --remove-section=.note "$1"
  strip --strip-debug --enable-deterministic-archives --remove-section=.comment \
    --remove-section=.note "$dev/$libraries/libsulderko.a"
  echo "libsulderko 1 libsulderko1 (>= $version)" > "$room/debian/libsulderko1/DEBIAN/shlibs"
  echo "activate-noawait ldconfig" > "$room/debian/libsulderko1/DEBIAN/triggers"
  pack libsulderko1 "$(needs libsulderko1 "$1")"
  pack libsulderko-dev
  pack python3-sulderko
}

mkdir -p "$room/debian"
make -s -C "$top" install DESTDIR="$room/all" PREFIX=/usr LIBDIR="$libraries" \
  ZSHDIR=share/zsh/vendor-completions
if test -e "$all/$libraries/libsulderko.a"; then pack_library; else echo "no library: make library"; fi
mv "$room/all" "$room/debian/sulderko"
all=$room/debian/sulderko/usr
cp "$top/CHANGELOG.md" "$all/share/doc/sulderko/CHANGELOG.md"
set -- "$all/bin/ycc" "$all/bin/ystep" "$all"/libexec/sulderko/*
strip --strip-unneeded --remove-section=.comment --remove-section=.note "$@"
strip --strip-debug --enable-deterministic-archives "$all/$libraries/libydriver.a"
pack sulderko "$(needs sulderko "$@")"
