#!/bin/sh
# Gives a member the password of its own choice: a CGI program. Apache runs it for who has shown the old password, with
# the login in REMOTE_USER and the new password to read.
set -eu
here=$(cd "$(dirname "$0")" && pwd)
. "$here/passwords.sh"
LC_ALL=C

leads_to() {
    printf 'Status: 303\r\nLocation: %s\r\n\r\n' "$1"
    exit
}

# bcrypt reads 72 bytes, and no more.
is_fit() {
    case $1 in
        "$REMOTE_USER" | *[[:cntrl:]]*) return 1 ;;
    esac
    [ ${#1} -ge 10 ] && [ ${#1} -le 72 ]
}

case $REMOTE_USER in
    "" | *[!a-z0-9._-]*) exit 1 ;;
esac
cd "$HOUSE"
password=$(head -c 100)
is_fit "$password" || leads_to /password.html#unfit
set_password "$REMOTE_USER" "$password"
leads_to /sign-in.html#changed
