#!/bin/sh
# house.sh PROGRAM PORT COUNT: serves the house of this folder, its queue and its sign-in, and closes what is due after each
# CLOSE seconds, or never, where that is 0. start.sh runs it in a network of its own. Then nobody else reaches their ports.
set -eu
program=$1 count=$3
PATH=$PATH:/usr/sbin:/sbin
SCRIPTS=$(cd "$(dirname "$0")" && pwd)
export HOUSE="$PWD" RUN="$PWD/run" LOG="$PWD/sign-in.log" HOUSE_PORT="$2" SIGN_IN_PORT=$(($2 + 1)) SCRIPTS \
    SOCKETS=run SOCKET_MODE=600 MESSAGES="${MESSAGES:-5000}"

# Runs a command again whenever it ends, after a second where that was a fault. The house ends after its count.
keep() {
    while :; do
        "$@" || sleep 1
    done
}

# The queue lets no command through before it knows the house's clock, which it learns by this answer.
tell_clock() {
    until curl -s -f -m 200 -o /dev/null --unix-socket run/queue.sock -H 'x-member: 0' http://house/house; do
        sleep 0.2
    done
}

serve_queue() {
    tell_clock &
    haproxy -db -q -f queue.cfg
}

# An item takes no bid after its end. Until it is closed it isn't sold.
close_due() {
    while sleep "$1"; do
        curl -s -m 300 -o /dev/null --unix-socket run/queue.sock -X POST -H 'x-member: 0' http://house/close || :
    done
}

apart=
if [ "$(id -u)" = 0 ]; then
    ip link set lo up
    # Apache doesn't run as root, and not as the root of its own network either.
    apart="unshare --user --map-user=1"
fi
keep serve_queue &
# shellcheck disable=SC2086 # It is a command with its words, or nothing.
keep $apart apache2 -D FOREGROUND -f "$PWD/sign_in.conf" &
[ "${CLOSE:-60}" = 0 ] || close_due "${CLOSE:-60}" &
[ "${CATALOGUE:-60}" = 0 ] || sh "$SCRIPTS/catalogue/each_minute.sh" "$PWD" "${CATALOGUE:-60}" &
keep "$program" serve house --port "$HOUSE_PORT" --count "$count"
