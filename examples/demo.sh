#!/bin/sh
# Shows the session of an example, each command line and then its reply, as it comes. The program is
# built without proving and checks as it runs; the proofs are those of `make test`.
#
# An empty line is answered `unknown command`: one after each command shows where its reply ends.
set -eu
example=$(cd "$(dirname "$0")/$1" && pwd)
echo "--- ystep examples/$1/grammar.y examples/$1/tokens"
cd "$example/../../crates/ystep"
sed G "$example/session/stdin" |
  rt try -- "$example/grammar.y" "$example/tokens" 2>&1 |
  awk -v commands="$example/session/stdin" '
    function show_command() {
      if (waits && (getline line < commands) > 0) print "> " line
      waits = 0
    }
    BEGIN { waits = 1 }
    /^(checked: |run=|rt: )/ { next }
    $0 == "unknown command" { show_command(); waits = 1; fflush(); next }
    { show_command(); print; fflush() }
    END { show_command() }'
