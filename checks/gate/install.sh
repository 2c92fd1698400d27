#!/bin/sh
# Tries `make install`, `make uninstall` and `make dist` in an empty folder: the programs run from
# there, both calculators are built from what lies there, and nothing stays behind.
# So does the library, where make library built it.
#
#     install.sh        after make build
set -eu
top=$(cd "$(dirname "$0")/../.." && pwd)
room=$(mktemp -d)
trap 'rm -rf "$room"' EXIT
there=$room/root/opt/y
fail() { echo "install.sh: $1"; exit 1; }

make -s -C "$top" install DESTDIR="$room/root" PREFIX=/opt/y YACC_LINK=1 BISON_LINK=1
cd "$room"

for name in yacc bison; do
  test "$(readlink "$there/bin/$name")" = ycc || fail "no link $name"
done
cp "$top/examples/calculator-c/"* .  2> /dev/null || true
make -s YACC="$there/bin/yacc" check || fail "other sums by ycc"
"$there/bin/bison" -d calc.y
test -f calc.tab.c -a -f calc.tab.h || fail "other names by bison"
rm "$there/bin/yacc" "$there/bin/bison"
make -s -C "$top" install DESTDIR="$room/root" PREFIX=/opt/y
test ! -e "$there/bin/yacc" || fail "a table writer on the path"
"$there/libexec/sulderko/yacc" -b aside "$top/examples/one-rule/grammar.y"
make -s -C "$top" install DESTDIR="$room/root" PREFIX=/opt/y TABLE_WRITER=1

"$there/bin/yacc" "$top/examples/one-rule/grammar.y"
cmp y.tab aside.tab || fail "another table aside"
cmp y.tab "$top/examples/one-rule/tables/left/y.tab" || fail "another table"
for page in yacc ycc ystep ydebug; do
  "$there/bin/$page" --help > /dev/null || fail "no help of $page"
  test -s "$there/share/man/man1/$page.1" || fail "no page of $page"
done

"$there/bin/yacc" "$there/share/ydriver/calculator.y"
"$there/bin/ydebug" rules "$there/share/ydriver/calculator.y" --header calculator_rules.h \
  --python calculator_rules.py
export PKG_CONFIG_PATH="$there/lib/pkgconfig" PKG_CONFIG_SYSROOT_DIR="$room/root"
# shellcheck disable=SC2046
${CC:-cc} -std=c99 -I. -o sums $(pkg-config --cflags ydriver) "$there/share/ydriver/calculator.c" \
  $(pkg-config --libs ydriver)
./sums y.tab < "$top/drivers/sums" | cmp - "$top/drivers/answers" || fail "other sums in C"
PYTHONPATH=. python3 -B "$there/share/ydriver/calculator.py" y.tab < "$top/drivers/sums" |
  cmp - "$top/drivers/answers" || fail "other sums in Python"

if test -f "$top/bin/libsulderko.a"; then
  sed -n '/^```c$/,/^```$/{/^```/d;p}' "$there/share/doc/sulderko/LIBRARY.md" > example.c
  # shellcheck disable=SC2046
  ${CC:-cc} -o example example.c $(pkg-config --cflags --libs sulderko)
  LD_LIBRARY_PATH="$there/lib" ./example | grep -q "a sentence" || fail "no answer of the library"
  test -s "$there/share/man/man3/sulderko.3" || fail "no page of the library"
fi

ln -s /bin/true "$there/bin/bison"
make -s -C "$top" uninstall DESTDIR="$room/root" PREFIX=/opt/y
rm "$there/bin/bison" || fail "a bison that is no link of ours was taken away"
left=$(find "$room/root" ! -type d)
test -z "$left" || fail "left behind: $left"

make -s -C "$top" dist VERSION=0
tar xzf "$top/bin/sulderko-0.tar.gz"
rm "$top/bin/sulderko-0.tar.gz"
test -f sulderko-0/README.md || fail "no README in the archive"
make -s -C sulderko-0 bin/libydriver.a
echo "installed, run, taken away, packed"
