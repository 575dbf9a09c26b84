#!/bin/sh
# start.sh PROGRAM FOLDER [HOST...]: serves a house for each host name, at https://HOST:8443, without root.
# Each house lies in FOLDER/houses/HOST. One that isn't there is made, with members ana, ben and cid, by the
# settings of the examples. Without a name there is one house, at localhost. Houses that run there already go on, and a
# house that can't be served keeps none of the others down. PORT may be another port, COUNT the connections after which a
# house is started anew, HOUSE_PORT the first of the ports of the houses, two for each, and CLOSE the seconds after which
# what is due is closed, or 0 for never.
set -eu
here=$(cd "$(dirname "$0")" && pwd)
port=${PORT:-8443} count=${COUNT:-1000000}
PATH=$PATH:/usr/sbin:/sbin
status=0

complain() {
    echo "start.sh: $1" >&2
    status=1
}

fail() {
    complain "$1"
    exit 1
}

check_needs() {
    for command in nginx haproxy apache2 htpasswd sqlite3 openssl curl setsid unshare flock ip ps python3; do
        command -v "$command" > /dev/null || fail "no $command: README.md has the packages"
    done
}

# What members sealed is in the files of a house, so its user alone may read them. A house that others could read is
# shut; one that can't be shut, since another user owns it, isn't served.
shut_house() {
    [ -n "$(find "houses/$1" -maxdepth 1 ! -type l -perm /077)" ] || return 0
    if chmod -R go= "houses/$1"; then
        echo "start.sh: other users could read files in houses/$1 until now" >&2
    else
        complain "others may read houses/$1, and its owner alone can shut it: it isn't served"
        return 1
    fi
}

# No browser takes a certificate of its own that could make others.
make_certificate() {
    openssl req -x509 -newkey ec -pkeyopt ec_paramgen_curve:prime256v1 -nodes -keyout "houses/$1/key.pem" -out "houses/$1/cert.pem" -days 365 \
        -subj "/CN=$1" -addext "subjectAltName=DNS:$1" -addext basicConstraints=critical,CA:FALSE 2> /dev/null
}

# Makes the files of a house that are missing.
make_house() {
    mkdir -p "houses/$1/addresses"
    echo "https://$1:$port" > "houses/$1/origin"
    [ -e "houses/$1/page" ] || cp -r "$here/page" "houses/$1/"
    [ -e "houses/$1/cert.pem" ] || make_certificate "$1"
    cp "$here/queue.cfg" "$here/sign_in.conf" "houses/$1/"
    sqlite3 -bail "houses/$1/accounts" < "$here/accounts.sql" > /dev/null
    [ -e "houses/$1/port" ] || echo $((${HOUSE_PORT:-18080} + 2 * $(find houses -name port | wc -l))) > "houses/$1/port"
    [ -e "houses/$1/house" ] ||
        "$program" init "houses/$1/house" --bands "$here/../../examples/bands.csv" --rate 1000 --zone UTC0 > /dev/null
}

# A house holds its lock as long as any of its processes goes on.
is_running() {
    ! flock -n "houses/$1/run/lock" true
}

# Serves the house of a host, in a network of its own where the machine lets a user make one.
serve_house() {
    rm -f "houses/$1/run/"*.sock
    # shellcheck disable=SC2086 # It is a command with its words, or nothing.
    (cd "houses/$1" && exec setsid flock -F run/lock $own_network sh "$here/house.sh" "$program" "$(cat port)" "$count") \
        > "logs/$1.log" 2>&1 &
    echo $! > "houses/$1/run/house.pid"
}

begin() {
    mkdir -p "houses/$1/run"
    if ! is_running "$1"; then
        rm -f "houses/$1/site.conf"
        shut_house "$1" || return 0
        make_house "$1"
        serve_house "$1"
    elif [ -e "houses/$1/site.conf" ]; then
        complain "$1 runs already"
        return
    fi
    begun="$begun $1"
}

# Whether a house answers. One that has a fault says so in its log.
is_served() {
    until curl -s -f -m 2 -o /dev/null --unix-socket "houses/$1/run/queue.sock" -H 'x-member: 0' http://house/house; do
        ! grep -m 1 "^auction: " "logs/$1.log" >&2 || return 1
        sleep 0.2
    done
}

account() {
    sh "$here/account.sh" "$@"
}

# Lets the house and three members sign in where nobody may. A run that was stopped in it is ended by the next.
add_first_members() {
    printed=houses/$1/passwords.begun
    [ -z "$(account list "houses/$1")" ] || [ -e "$printed" ] || return 0
    touch "$printed"
    listed=$(account list "houses/$1")
    case $listed in
        *"house 0"*) ;;
        *) account adopt "houses/$1" house 0 >> "$printed" ;;
    esac
    for name in Ana Ben Cid; do
        login=$(echo "$name" | tr "[:upper:]" "[:lower:]")
        case $listed in
            *"$login "[1-9]*) ;;
            *) account add "houses/$1" "$login" "$name" >> "$printed" ;;
        esac
    done
    mv "$printed" "houses/$1/passwords"
}

# The server of a house for nginx.
make_site() {
    sh "$here/make_site.sh" NAME="$1" HOST="$1" LISTEN="127.0.0.1:$port" ORIGIN="https://$1:$port" RUN="houses/$1/run" \
        KEYS="houses/$1" PAGE="houses/$1/page" FILES="houses/$1" > "houses/$1/site.conf"
}

# The queue lets no command through while the house's clock and the machine's are more than a day apart.
look_at_clock() {
    ! clocks=$(sh "$here/clock_is_right.sh" "houses/$1") || return 0
    complain "$1 takes no command: $clocks. If the machine's is right: sh $here/clock_is_right.sh $PWD/houses/$1 $(date +%F)"
    return 1
}

# Has nginx serve the house of a host, once it runs.
open_house() {
    if is_served "$1"; then
        ! look_at_clock "$1" || add_first_members "$1"
        make_site "$1"
        opened="$opened $1"
    else
        sh "$here/stop.sh" "$PWD" "$1"
        complain "the house of $1 has a fault: docs/RUNNING.md has its words"
    fi
}

# Houses that ended without stop.sh, as where the machine did, aren't nginx's any more.
forget_ended() {
    for file in houses/*/site.conf; do
        ended=${file%/site.conf}
        [ ! -e "$file" ] || is_running "${ended#houses/}" || rm "$file"
    done
}

# Whether nginx answers for a house, within ten seconds.
is_open() {
    for _ in $(seq 100); do
        ! curl -s -f -m 2 -o /dev/null --cacert "houses/$1/cert.pem" --resolve "$1:$port:127.0.0.1" \
            "https://$1:$port/sign-in.html" || return 0
        sleep 0.1
    done
    return 1
}

# Whether the number that nginx noted is still its own, and not another process's since the machine began again.
nginx_runs() {
    [ -e run/nginx.pid ] || return 1
    case $(ps -o args= -p "$(cat run/nginx.pid)") in
        "nginx: master"*) ;;
        *) return 1 ;;
    esac
}

# Starts nginx, or has it read its files again.
start_nginx() {
    sed -e "s/PORT/$port/g" "$here/nginx.conf" > nginx.conf
    for file in api errors form house maps server upstream; do
        cp "$here/$file.conf" auction/
    done
    if nginx_runs; then
        kill -s HUP "$(cat run/nginx.pid)"
    else
        nginx -p "$PWD" -c nginx.conf -e logs/error.log
    fi
    for host in $opened; do
        is_open "$host" || fail "nginx doesn't serve $host: logs/error.log has its words"
        echo "https://$host:$port: names and passwords in $PWD/houses/$host/passwords"
    done
}

[ $# -ge 2 ] || fail "its words are PROGRAM FOLDER [HOST...]"
[ "$(id -u)" != 0 ] || fail "run it as a user other than root"
umask 077
program=$(realpath "$1")
mkdir -p "$2"
cd "$2"
shift 2
[ $# -gt 0 ] || set -- localhost
mkdir -p auction run logs tmp
check_needs
own_network="unshare --user --map-root-user --net"
$own_network true 2> /dev/null || {
    own_network=
    echo "start.sh: no network of its own, so any user of this machine can speak for the house" >&2
}
begun='' opened=''
trap '[ -z "$begun" ] || sh "$here/stop.sh" "$PWD" $begun' EXIT
for host in "$@"; do
    begin "$host"
done
for host in $begun; do
    open_house "$host"
done
forget_ended
[ -z "$opened" ] || start_nginx
trap - EXIT
echo "stop it by: sh $here/stop.sh $PWD"
exit "$status"
