#!/bin/sh
# give_up.sh CITY: ends a city on this machine, as root, so that another one can open its house.
set -eu
# shellcheck source=../service/units.sh
. /usr/share/auction/units.sh
# shellcheck disable=SC2046 # A unit's name has no blanks.
exec systemctl stop $(units_of "$1")
