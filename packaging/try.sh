#!/bin/sh
# Tries Debian packages: lintian finds no error and no warning; in an empty root they install, the
# programs run, the completions name the options of the programs, a project is built by CMake and by
# Meson with what was installed, the library answers in C and in Python where it is there, and nothing
# is left after their removal.
#
#     try.sh [-r ROOT] PACKAGE..
#
# ROOT is a Debian root (debootstrap makes one): the package of the programs is installed, run and
# removed there too.
set -eu
top=$(cd "$(dirname "$0")/.." && pwd)
debian=
test "$1" != -r || { debian=$2; shift 2; }
# shellcheck disable=SC2046 # whole paths, since the folder changes
set -- $(readlink -f "$@")
package=$(printf '%s\n' "$@" | grep /sulderko_)
room=$(mktemp -d)
trap 'rm -rf "$room"' EXIT
root=$room/root
fail() { echo "try.sh: $1"; exit 1; }

# An empty root has no libc6, so dpkg is told to go on without it; the programs then run by the
# libraries of this machine.
dpkg_there() {
  dpkg --root="$root" --force-not-root --force-depends --log="$room/log" "$@" > "$room/dpkg" 2>&1 ||
    { cat "$room/dpkg"; fail "dpkg $1"; }
}

answers() { cmp -s "$1" "$2" || fail "other sums by $3"; }

options_of() { "$@" --help | sed '/^Refused:/,$d' | grep -o -E -e '(^|[ ,])--?[A-Za-z][A-Za-z-]*' | tr -d ' ,' | sort -u; }

named() {
  file=$1
  shift
  for option in $(options_of "$@"); do
    for shell in bash-completion/completions/ zsh/vendor-completions/_; do
      grep -q -E -e "(^|[^-A-Za-z])$option([^-A-Za-z]|\$)" "$root/usr/share/$shell$file" ||
        fail "$shell$file lacks $option of $*"
    done
  done
}

run_there() {
  cd "$room"
  PATH=$root/usr/bin:$PATH
  for name in ycc ystep ydebug; do "$name" --help > /dev/null || fail "no help of $name"; done
  "$root/usr/libexec/sulderko/yacc" "$top/examples/one-rule/grammar.y"
  cmp -s y.tab "$top/examples/one-rule/tables/left/y.tab" || fail "another table"
}

completed() {
  for name in ycc ystep ydebug; do named "$name" "$name"; done
  named yacc "$root/usr/libexec/sulderko/yacc"
  for form in check conflicts import init lex-spec page rules table test tokens; do
    named ydebug ydebug "$form"
  done
}

# Runs a step of a build quietly; what it wrote is shown where it fails.
step() { "$@" > "$room/step" 2>&1 || { cat "$room/step"; fail "$*"; }; }

built() {
  cp -r "$root/usr/share/doc/sulderko/examples" "$room/project"
  cd "$room/project"
  step cmake -S . -B by-cmake -DCMAKE_PREFIX_PATH="$root/usr" -DCMAKE_FIND_USE_CMAKE_SYSTEM_PATH=OFF
  step cmake --build by-cmake
  PKG_CONFIG_LIBDIR=$(echo "$root"/usr/lib/*/pkgconfig)
  PKG_CONFIG="pkg-config --define-variable=prefix=$root/usr"
  export PKG_CONFIG_LIBDIR PKG_CONFIG
  step meson setup by-meson
  step meson compile -C by-meson
  for way in by-cmake by-meson; do
    "$way/calc" < "$top/examples/calculator-c/sums" > "$room/sums"
    answers "$room/sums" "$top/examples/calculator-c/answers" "calc $way"
    "$way/calculator" "$way/calculator.tab" < "$top/drivers/sums" > "$room/sums" || test $? -eq 1
    answers "$room/sums" "$top/drivers/answers" "calculator $way"
  done
}

# A program in C by pkg-config, and the module of Python, over the library that was installed.
linked() {
  libraries=$(echo "$root"/usr/lib/*/libsulderko.so.1)
  LD_LIBRARY_PATH=${libraries%/*}
  export LD_LIBRARY_PATH
  cat > "$room/judge.c" << 'END'
#include <stdio.h>
#include <sulderko.h>
int main(void) {
  sulderko_verdict it;
  if (sulderko_judge("%token NUM %% list : | list NUM ;", 33, "NUM", 3, &it) != SULDERKO_DONE)
    return 1;
  return printf("%lu\n", (unsigned long)it.steps) < 0;
}
END
  echo 4 > "$room/wanted"
  step sh -c "cc -o '$room/judge' '$room/judge.c' $($PKG_CONFIG --cflags --libs sulderko)"
  "$room/judge" > "$room/said" || fail "a program in C"
  cmp -s "$room/said" "$room/wanted" || fail "a verdict in C"
  code='import sulderko; print(sulderko.judge("%token NUM %% list : | list NUM ;", "NUM").steps)'
  PYTHONPATH=$root/usr/lib/python3/dist-packages python3 -B -c "$code" > "$room/said" ||
    fail "the module of Python"
  cmp -s "$room/said" "$room/wanted" || fail "a verdict in Python"
}

# chroot begins in the root that it changes to, so these paths are below it.
in_debian() {
  cp "$package" "$debian/package.deb"
  cp "$top/examples/one-rule/grammar.y" "$debian/grammar.y"
  step chroot "$debian" dpkg -i package.deb
  for name in ycc ystep ydebug; do step chroot "$debian" "$name" --help; done
  step chroot "$debian" usr/libexec/sulderko/yacc -b y grammar.y
  cmp -s "$debian/y.tab" "$top/examples/one-rule/tables/left/y.tab" ||
    fail "another table in $debian"
  step chroot "$debian" dpkg --purge sulderko
  rm "$debian/package.deb" "$debian/grammar.y" "$debian/y.tab"
  test ! -e "$debian/usr/bin/ycc" || fail "left in $debian: ycc"
}

lintian --fail-on error,warning "$@" || fail "lintian"
mkdir -p "$root/var/lib/dpkg/info" "$root/var/lib/dpkg/updates"
: > "$root/var/lib/dpkg/status"
dpkg_there -i "$@"
run_there
completed
built
test ! -e "$root/usr/include/sulderko.h" || linked
names=$(for it in "$@"; do dpkg-deb --field "$it" Package; done)
dpkg_there --purge $names
left=$(find "$root/usr" -not -type d 2> /dev/null || true)
test -z "$left" || fail "left: $left"

test -z "$debian" || in_debian
echo "packed, installed, run, built by CMake and Meson, removed"
