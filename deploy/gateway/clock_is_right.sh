#!/bin/sh
# clock_is_right.sh HOUSE [DAY]: lets the commands of a house through again that was away for more than a day. HOUSE is the folder
# with run/queue.sock: FOLDER/houses/HOST of start.sh, or /etc/auction/CITY of setup.sh. DAY is today, such as 2026-03-20, by
# another clock than the machine's. Where the machine has another day, nothing is done. Without a day it tells both clocks where
# they are more than a day apart, and ends with 1.
set -eu

fail() {
    echo "clock_is_right.sh: $1" >&2
    exit 1
}

ask_house() {
    path=$1
    shift
    curl --silent --show-error --fail-with-body --max-time 200 --unix-socket run/queue.sock --header 'x-member: 0' "$@" "http://house$path"
}

# Tells both clocks where they are apart. A new house has 0.
compare() {
    clock=$(ask_house /house | sed -n 's/.*"clock":\([0-9]*\).*/\1/p')
    [ -n "$clock" ] || fail "the house isn't served"
    apart=$(($(date +%s) - clock))
    if [ "$clock" != 0 ] && { [ "$apart" -gt 86400 ] || [ "$apart" -lt -86400 ]; }; then
        echo "the clock of the house is $(date -d "@$clock" +%FT%T), the machine's $(date +%FT%T)"
        exit 1
    fi
}

[ $# = 1 ] || [ $# = 2 ] || fail "its words are HOUSE [DAY]"
cd "$1"
if [ $# = 1 ]; then
    compare
else
    [ "$(date +%F)" = "$2" ] || fail "the machine has $(date +%F), not $2: set its clock"
    ask_house /close --request POST --header 'x-clock: right'
    echo
fi
