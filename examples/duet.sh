#!/usr/bin/env bash
# A duet: a server and two performers with `sh` as their interpreters, on the loopback address. Both type and evaluate at the same
# time; at the end both texts are shown, and that they are equal, and what became of each block. Builds the program where it isn't
# built. Ends by itself, with 0 where all went well, and leaves no process.
set -u
top=$(cd "$(dirname "$0")/.." && pwd)
troop=$top/crates/troop/out/troop

if [ ! -x "$troop" ]; then
    echo "duet: troop isn't built yet; what it stands on is proved now, on all processors, which takes half an hour or so"
    (cd "$top/crates/troop" && rt run --jobs "$(nproc)" -- replay </dev/null >/dev/null) || exit
fi

evening=$(mktemp -d) || exit
started=()
clean_up() {
    for process in "${started[@]}"; do
        kill "$process" 2>/dev/null
    done
    wait
    rm -rf "$evening"
}
trap clean_up EXIT
trap 'exit 1' INT TERM

# Starts a server that ends behind two performers, which have two links each. Where a port is taken, another one is tried.
for attempt in 1 2 3 4 5; do
    address=127.0.0.1:$((20000 + (RANDOM + attempt) % 20000))
    "$troop" serve "$address" --sessions 4 >"$evening/server" 2>"$evening/server.err" &
    server=$!
    sleep 0.5
    if kill -0 "$server" 2>/dev/null; then
        break
    fi
    wait "$server"
    server=
done
if [ -z "$server" ]; then
    echo "duet: no server could be started: $(cat "$evening/server.err")"
    exit 1
fi
started+=("$server")

# How often each of both types a line and evaluates it.
rounds=6

# Reads what is printed up to a performer's line, and keeps that line's text, whether an edit of the performer's is awaited, and
# whether something was refused in front of it. What the interpreter prints comes by here as well.
see() {
    refused=
    while IFS= read -r -t 30 line <&"$lines"; do
        echo "$line" >>"$evening/$name"
        case $line in
        '{"awaits":'*)
            awaits=${line#'{"awaits":'}
            awaits=${awaits%%,*}
            text=${line#*'"text":"'}
            text=${text%'","who":'*}
            return 0
            ;;
        '{'*'"no":'*) refused=$line ;;
        esac
    done
    echo "duet: nothing more came from $name"
    exit 1
}

# Gives commands, and sees what they led to.
give() {
    printf '%s\n' "$@" '["show"]' >&"$commands"
    see
}

# How long the text is: a line feed stands in it as a backslash and an n.
length() {
    local plain=${text//\\n/.}
    echo ${#plain}
}

# Types at the end of the text, and waits till that is confirmed, so that no two lines go out as one edit. An edit that meets another
# text than was seen, since the other's came in between, is refused, and made again.
type_line() {
    local behind
    while
        behind=$(length)
        if [ "$behind" = 0 ]; then
            give "[\"edit\",[\"$1\"]]"
        else
            give "[\"edit\",[$behind,\"$1\"]]"
        fi
        [ -n "$refused" ]
    do :; done
    while [ "$awaits" != 0 ]; do
        sleep 0.05
        give
    done
}

# One player: a performer with its interpreter, and who types for it.
play() {
    name=$1
    mkfifo "$evening/$name.commands" "$evening/$name.lines" || exit
    timeout 60 "$troop" perform "$address" "$name" lines -- sh \
        <"$evening/$name.commands" >"$evening/$name.lines" 2>"$evening/$name.err" &
    local performer=$!
    exec {commands}>"$evening/$name.commands" {lines}<"$evening/$name.lines"
    give '["until",2]'
    for ((round = 1; round <= rounds; round++)); do
        type_line "echo $name plays $round\\n\\n"
        give "[\"eval\",$(($(length) - 2))]"
        [ -z "$refused" ] || give '["eval",0]'
        sleep 0.3
    done
    give "[\"until\",$((2 + 4 * rounds))]"
    exec {commands}>&-
    cat <&"$lines" >>"$evening/$name"
    wait "$performer"
}

play ann &
ann=$!
play bo &
bo=$!
started+=("$ann" "$bo")

status=0
for player in ann bo; do
    wait "${!player}" || { status=$?; echo "duet: $player ended with status $status: $(cat "$evening/$player.err")"; }
done
wait "$server" || { status=$?; echo "duet: the server ended with status $status: $(cat "$evening/server.err")"; }
started=()

for player in ann bo; do
    echo "what $player's interpreter printed, and at the end $player's text and journal:"
    grep -v '^{' "$evening/$player"
    grep '^{' "$evening/$player" | tail -n 2
done
echo "the server:"
cat "$evening/server"

# The text of a printed line, as it stands there.
text_of() {
    grep -o '"text":"[^"]*"' "$evening/$1" | tail -n 1
}
if [ "$(text_of ann)" = "$(text_of bo)" ] && [ "$(text_of ann)" = "$(text_of server)" ] && [ -n "$(text_of server)" ]; then
    echo "duet: the three texts are equal"
else
    echo "duet: the texts differ"
    status=1
fi
exit "$status"
