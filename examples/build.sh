#!/bin/sh
# Proves the programs and leaves them in bin/.
set -eu
top=$(cd "$(dirname "$0")/.." && pwd)
mkdir -p "$top/bin"
for name in yacc ycc ystep ydebug calls; do
  cd "$top/crates/$name"
  case $name in
    calls) set -- data/one.y data/one.tokens ;;
    *) set -- --help ;;
  esac
  rt run -- "$@" > /dev/null
  program=$(find out -type f -perm -u+x ! -name '*.so' ! -name '*.o' | grep "/$name\$" | head -n 1)
  [ -n "$program" ] || { echo "no program was built"; exit 1; }
  cp "$program" "$top/bin/$name"
  echo "bin/$name"
done
