#!/bin/sh
# answers.sh CITY: whether the house of a city answers on this machine, where its queue runs here. keepalived asks.
set -eu
[ -S "/run/auction/$1/queue.sock" ] || exit 0
exec curl --silent --fail --max-time 9 --output /dev/null --unix-socket "/run/auction/$1/queue.sock" --header 'x-member: 0' \
    http://house/house
