#!/usr/bin/env bash
# Three machines that tell each other what they issue over a Redis stream; see README.md. Two of
# them break off and are started again. Ends with three equal snapshots, or with status 1; with 77
# where there is no redis-server. Takes less than a minute, and stops all that it started.
set -uo pipefail
export PYTHONDONTWRITEBYTECODE=1
here=$(CDPATH= cd -- "$(dirname -- "$0")" && pwd)
program=$(realpath -m -- "${L4MAP:-$here/../../crates/l4map/out/l4map}")
most_seconds=50

if ! command -v redis-server >/dev/null; then
    echo "skipped: redis-server is not there; it is in Debian's package redis-server"
    exit 77
fi
if ! [[ -x $program ]]; then
    echo "$program is not there: ./l4map builds it, and L4MAP names another"
    exit 1
fi
folder=$(mktemp -d)
broker=
port=
machines=(0 0 0)

# Stops what is still running, by its number, and waits until it is gone. Each l4map ends with its
# machine.
stop_all() {
    for machine in "${machines[@]}"; do
        [[ $machine -eq 0 ]] || kill -KILL "$machine"
    done
    [[ -z $broker ]] || kill -TERM "$broker"
    wait
    rm -rf "$folder"
} 2>/dev/null
trap stop_all EXIT
trap 'exit 1' INT TERM

fail() {
    echo "failed: $*"
    tail -n 5 "$folder"/*.log
    exit 1
}

# Waits until a command answers yes.
wait_until() {
    until "$@" >/dev/null 2>&1; do
        [[ $SECONDS -lt $most_seconds ]] || fail "out of time: $*"
        sleep 0.05
    done
}

free_port() {
    python3 -c '
import socket

with socket.socket() as listening:
    listening.bind(("127.0.0.1", 0))
    print(listening.getsockname()[1])'
}

is_listening() {
    grep -q "Ready to accept connections" "$folder/broker.log"
}

# Listens, or ended: the port was taken in between, perhaps.
is_settled() {
    is_listening || ! kill -0 "$broker"
}

# Nothing is stored: what the broker has is gone with it.
start_broker() {
    port=$(free_port)
    timeout 60 redis-server --bind 127.0.0.1 --port "$port" --dir "$folder" --save '' \
        --appendonly no >"$folder/broker.log" 2>&1 &
    broker=$!
    wait_until is_settled
    is_listening || fail "the broker"
    echo "broker: $(redis-server --version | cut -d' ' -f1-3), port $port"
}

# Starts a machine, or starts it again; with a number of commands, after which it breaks off.
start_machine() {
    : >"$folder/machine-$1.log"
    python3 "$here/machine.py" "$1" "$port" "$folder" "$program" "$here/machine-$1.commands" \
        "${@:2}" >>"$folder/machine-$1.log" 2>&1 &
    machines[$1]=$!
}

is_gone() {
    ! kill -0 "${machines[$1]}"
}

is_ready() {
    grep -q "^ready" "$folder/machine-$1.log"
}

has_told_all() {
    grep -q "^all told" "$folder/machine-$1.log"
}

has_told_all_or_failed() {
    has_told_all "$1" || is_gone "$1"
}

# How many commands a machine has done, as it saved it.
commands_done() {
    head -n 1 "$folder/machine-$1.kept" 2>/dev/null || echo 0
}

has_done() {
    [[ $(commands_done "$1") -ge $2 ]]
}

# Starts a machine again, from what it saved.
restart_machine() {
    start_machine "$1"
    wait_until is_ready "$1"
    echo "machine $1: started again from its file, $(head -n 1 "$folder/machine-$1.log")"
}

# Has a machine take what is left in the stream, save, and end.
stop_machine() {
    kill -TERM "${machines[$1]}"
    wait_until is_gone "$1"
    wait "${machines[$1]}" || fail "machine $1"
    machines[$1]=0
    echo "machine $1: $(tail -n 1 "$folder/machine-$1.log")"
    sed -n 2p "$folder/machine-$1.kept" >"$folder/snapshot-$1"
}

start_broker
start_machine 0
start_machine 1
start_machine 2 4

wait_until has_done 1 3
{ kill -KILL "${machines[1]}" && wait "${machines[1]}"; } 2>/dev/null
machines[1]=0
echo "machine 1: killed, at any moment; its file has $(commands_done 1) commands"
sleep 1
restart_machine 1
wait_until is_gone 2
machines[2]=0
[[ $(commands_done 2) -eq 4 ]] || fail "machine 2"
echo "machine 2: broke off, after it saved its command 4 and before it told the others"
restart_machine 2

for number in 0 1 2; do
    wait_until has_told_all_or_failed "$number"
    has_told_all "$number" || fail "machine $number"
done
echo "machines 0, 1 and 2: all commands are done, and what they issued is told"
for number in 0 1 2; do
    stop_machine "$number"
done

for number in 1 2; do
    cmp "$folder/snapshot-0" "$folder/snapshot-$number" || fail "the snapshots differ"
done
echo "the three snapshots are the same, byte for byte: $(wc -c <"$folder/snapshot-0") bytes"
printf 'processors 1\nload 0 %s\nserved 0 3 c0000\n' "$(cat "$folder/snapshot-0")" |
    "$program" run >"$folder/answer" || fail "the last question"
echo "by their snapshot, space 3 at c0000: $(tail -n 1 "$folder/answer")"
