#!/bin/sh
# make_volume.sh CITY FOLDER HOST HOST HOST: makes a volume of GlusterFS that three machines keep, as root on the first of them.
# FOLDER is where each keeps its part, on a disk other than the system's, or with FORCE=force. With ARBITER=1 the third machine
# keeps the names of files and no contents. glusterfs-server runs on each, and each knows the others' names.
set -eu

fail() {
    echo "make_volume.sh: $1" >&2
    exit 1
}

# Waits until the other machines are members of the pool.
join() {
    for host in "$@"; do
        gluster --mode=script peer probe "$host" > /dev/null
    done
    for _ in $(seq 60); do
        [ "$(gluster peer status | grep -c '(Connected)')" -lt $# ] || return 0
        sleep 1
    done
    fail "a machine does not join: gluster peer status"
}

set_option() {
    gluster --mode=script volume set "$city" "$1" "$2" > /dev/null
}

[ $# = 5 ] || fail "its words are CITY FOLDER HOST HOST HOST"
city=$1 folder=$2
shift 2
join "$2" "$3"
gluster --mode=script volume create "$city" replica 3 ${ARBITER:+arbiter 1} "$1:$folder" "$2:$folder" "$3:$folder" \
    ${FORCE:+"$FORCE"}
# Two of three have to agree on each write. One that is left alone refuses to write, so there are never two houses.
set_option cluster.quorum-type auto
set_option cluster.server-quorum-type server
# How long a machine that is silent is waited for, in seconds, and how long its locks are kept.
set_option network.ping-timeout 5
set_option server.tcp-user-timeout 10
gluster --mode=script volume start "$city"
