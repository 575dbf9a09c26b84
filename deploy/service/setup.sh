#!/bin/sh
# setup.sh CITY HOST: makes a house for a city, and serves it by nginx at https://HOST, as root. What is there already stays.
# The package puts it into /usr/share/auction. The certificate is self-signed, until you put another there.
set -eu
share=/usr/share/auction
. "$share/units.sh"

fail() {
    echo "setup.sh: $1" >&2
    exit 1
}

check_words() {
    case $1 in
        "" | *[!a-z0-9-]* | -*) fail "a city is named by small letters, digits and hyphens: $1" ;;
    esac
    case $2 in
        "" | *[!a-z0-9.-]*) fail "a host name is of small letters, digits, hyphens and points: $2" ;;
    esac
}

# What members sealed is in its file, so its user alone may read it.
make_house() {
    runuser -u auction -- sh -c 'umask 077 && exec auction init "$@"' init "/var/lib/auction/$city/house" \
        --bands "$share/bands.csv" --rate 1000 --zone UTC0
}

start() {
    systemctl enable --quiet "$@"
    systemctl start "$@"
    ln -sf "$share/nginx/all.conf" /etc/nginx/sites-enabled/auction
    systemctl reload-or-restart nginx.service
    until [ -S "/run/auction/$city/queue.sock" ]; do
        sleep 0.2
    done
}

[ $# = 2 ] || fail "its words are CITY HOST"
check_words "$@"
city=$1 host=$2
install -d -o auction -g auction -m 700 "/var/lib/auction/$city"
[ -e "/var/lib/auction/$city/house" ] || make_house
sh "$share/make_city.sh" "$city" "$host"
# shellcheck disable=SC2046 # A unit's name has no blanks.
start $(units_of "$city")
echo "https://$host: let the first in by sh $share/account.sh adopt /etc/auction/$city house 0"
