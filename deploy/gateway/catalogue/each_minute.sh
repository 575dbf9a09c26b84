#!/bin/sh
# each_minute.sh HOUSE SECONDS: writes the catalogue of a house and tells members what changed, again and again, each time
# so many seconds after the last.
set -eu
here=$(cd "$(dirname "$0")" && pwd)
while :; do
    if python3 "$here/catalogue.py" "$1"; then
        python3 "$here/../notices/notices.py" "$1" || echo "notices of $1 wait"
    else
        echo "the catalogue of $1 stays as it was"
    fi
    sleep "$2"
done
