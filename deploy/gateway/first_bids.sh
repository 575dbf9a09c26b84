#!/bin/sh
# first_bids.sh FOLDER: the members that start.sh made at localhost list an atlas and bid for it over TLS. Each signs in by
# the form, as a browser does. Each line has who asks, and what the house answers. PORT is that of start.sh.
set -eu
cd "$1"
umask 077
url=https://localhost:${PORT:-8443}
cookies=$(mktemp -d)
trap 'rm -r "$cookies"' EXIT

# Signs in by a login, whose password no other user sees among the processes.
sign_in() {
    sed -n "s/^$1 [0-9]* //p" houses/localhost/passwords | tr -d '\n' |
        curl -sS --cacert houses/localhost/cert.pem -o /dev/null -c "$cookies/$1" -d "httpd_username=$1" --data-urlencode httpd_password@- "$url/sign-in"
}

ask() {
    name=$1 path=$2
    shift 2
    [ -e "$cookies/$name" ] || sign_in "$name"
    printf '%s: ' "$name"
    curl -sS --cacert houses/localhost/cert.pem -b "$cookies/$name" -w '\n' "$@" "$url/api$path"
}

tomorrow=$(($(date +%s) + 86400))
ask house /categories -d '{"name":"Books"}'
ask ana /items -d "{\"category\":1,\"end\":$tomorrow,\"lot\":\"A1\",\"start\":500,\"text\":\"\",\"title\":\"Atlas\"}"
ask ben /items/1/bids -d '{"maximum":500}'
ask cid /items/1/bids -d '{"maximum":1000}'
ask ben /me/bids/1
