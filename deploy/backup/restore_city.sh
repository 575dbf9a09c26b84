#!/bin/sh
# restore_city.sh COPY CITY: puts a copy that copy_city.py has made in the place of a city's house, accounts and settings, as root,
# and serves it, also on a machine that has nothing but the package. What was there is kept: the house as house.before beside it,
# all else in /var/backups/auction/CITY.before.
set -eu
umask 077
here=$(cd "$(dirname "$0")" && pwd)

fail() {
    echo "restore_city.sh: $1" >&2
    exit 1
}

stop() {
    systemctl stop "auction-*@$city.timer" "auction-*@$city.service" "auction@$city.service"
    systemctl reset-failed "auction*@$city.*" 2> /dev/null || true
}

restore_house() {
    install -d -o auction -g auction -m 700 "/var/lib/auction/$city"
    python3 "$here/restore_house.py" "$copy/house" "/var/lib/auction/$city/house" || fail "the city is stopped, and as it was"
}

# Keeps a folder under the name that it has in a copy, where it is there.
put_aside() {
    [ -e "$1" ] || return 0
    mkdir -p "$before"
    mv "$1" "$before/$2"
}

put_all_aside() {
    put_aside "/etc/auction/$city" settings
    put_aside "/var/lib/auction-sign-in/$city" sign-in
    put_aside "/var/lib/auction-page/$city" page
}

restore_settings() {
    install -d -m 755 /etc/auction "/etc/auction/$city"
    cp --preserve=mode,ownership,timestamps "$copy"/settings/* "/etc/auction/$city/"
}

restore_accounts() {
    [ -e "$copy/accounts" ] || return 0
    install -d -m 755 /var/lib/auction-sign-in
    install -d -o auction-sign-in -g auction-sign-in -m 700 "/var/lib/auction-sign-in/$city"
    install -o auction-sign-in -g auction-sign-in -m 600 "$copy/accounts" "/var/lib/auction-sign-in/$city/"
}

# Addresses, and what members have been told.
restore_page() {
    [ -e "$copy/page" ] || return 0
    install -d -m 755 /var/lib/auction-page
    cp -r "$copy/page" "/var/lib/auction-page/$city"
    chown -R www-data:www-data "/var/lib/auction-page/$city"
}

[ $# = 2 ] || fail "its words are COPY CITY"
copy=$(realpath "$1") city=$2
before=/var/backups/auction/$city.before
for file in house settings/host settings/site.conf; do
    [ -e "$copy/$file" ] || fail "no $file in $copy"
done
for file in "$before" "/var/lib/auction/$city/house.before"; do
    [ ! -e "$file" ] || fail "$file is there already"
done
# The house would be put where the user auction has it lead.
[ ! -L "/var/lib/auction/$city/house" ] || fail "/var/lib/auction/$city/house is a link"
stop
restore_house
put_all_aside
restore_settings
restore_accounts
restore_page
sh /usr/share/auction/setup.sh "$city" "$(cat "$copy/settings/host")"
