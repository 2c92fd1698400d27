#!/bin/sh
# Sessions of ydebug at a terminal, by tmux: the greeting, the prompt, colour, an empty line that
# repeats a move, lines that wrap, the end of input, no colour, and a long run with its progress,
# which is interrupted. Prints the screens.
#   terminal.sh YDEBUG
ydebug=$(realpath "$1")
top=$(cd "$(dirname "$0")/../.." && pwd)
number=0
room() { tmux -L "ydebug$$-$number" -f /dev/null "$@"; }
start() { # columns, rows, folder, what stands before the program's name
  number=$((number + 1))
  cd "$top/$3" || exit 2
  room new-session -d -x "$1" -y "$2" \
    "trap : INT; $4 $ydebug grammar.y tokens; echo status \$?; sleep 99"
  sleep 1
}
type() { room send-keys -t 0 "$1" Enter; sleep 1; }
text() { room capture-pane -p -e -t 0; }
screen() { echo "== $1"; text | cat -s; }
stop() { room kill-server; }
# Waits for a line of digits alone, which a long run writes.
progress() {
  for _ in $(seq 400); do
    text | grep -q '^[0-9]\{4,\}$' && return
  done
}

start 72 60 examples/statements ""
screen "the greeting and the prompt"
type "step 2"
type ""
type "run until conflict"
type "where"
type "xyz"
type "why"
room send-keys -t 0 C-d
sleep 1
screen "moves, a repeat by an empty line, a run until a conflict, why, and the end of input"
stop
start 100 8 examples/statements "NO_COLOR=1"
type "step 2"
type "quit"
screen "NO_COLOR"
stop
start 100 8 examples/statements "TERM=dumb"
type "step 2"
type "quit"
screen "TERM=dumb"
stop
start 80 20 scenarios/ydebug/endless ""
room send-keys -t 0 "run" Enter
progress
screen "a long run tells its position"
room send-keys -t 0 C-c
sleep 1
screen "an interrupt ends it"
stop
exit 0
