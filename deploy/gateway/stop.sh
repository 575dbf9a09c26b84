#!/bin/sh
# stop.sh FOLDER [HOST...]: ends the houses of these host names that start.sh serves there, each with its queue and its
# sign-in. Without a name it ends all of them, and the gateway.
set -eu
cd "$1"
shift

fail() {
    echo "stop.sh: $1" >&2
    exit 1
}

# Whether any of some processes goes on. One of state Z has ended.
goes_on() {
    for process in $1; do
        case $(ps -o stat= -p "$process") in
            "" | Z*) ;;
            *) return 0 ;;
        esac
    done
    return 1
}

# Waits until processes have ended, at most ten seconds.
have_ended() {
    for _ in $(seq 100); do
        goes_on "$1" || return 0
        sleep 0.1
    done
    return 1
}

# Has nginx do without some houses. The processes that knew them finish their requests, or have ten seconds for it.
leave_out() {
    nginx=$(cat run/nginx.pid)
    workers=$(ps -o pid= --ppid "$nginx" || true)
    ! kill -s HUP "$nginx" 2> /dev/null || have_ended "$workers" || true
}

end_nginx() {
    nginx=$(cat run/nginx.pid)
    ! kill -s QUIT "$nginx" 2> /dev/null || have_ended "$nginx" || fail "process $nginx goes on"
}

# A house that runs holds its lock. Without it the number may be another process's since the machine began again.
end_house() {
    [ -e "houses/$1/run/house.pid" ] || return 0
    if ! flock -n "houses/$1/run/lock" true; then
        kill -s TERM -- "-$(cat "houses/$1/run/house.pid")" 2> /dev/null || true
        flock -w 10 "houses/$1/run/lock" true || fail "the house of $1 goes on"
    fi
    rm "houses/$1/run/house.pid"
}

do_without=leave_out
if [ $# = 0 ]; then
    do_without=end_nginx
    # shellcheck disable=SC2046 # A host name has no blanks.
    set -- $(ls houses 2> /dev/null)
fi
for host in "$@"; do
    rm -f "houses/$host/site.conf"
done
case $([ ! -e run/nginx.pid ] || ps -o args= -p "$(cat run/nginx.pid)") in
    "nginx: master"*) $do_without ;;
esac
for host in "$@"; do
    end_house "$host"
done
