#!/bin/sh
# mount_volume.sh CITY HOST HOST HOST: mounts the volume of a city where its house is kept, as root on one of its machines, now and
# at each boot. The first host is this machine.
set -eu

fail() {
    echo "mount_volume.sh: $1" >&2
    exit 1
}

[ $# = 4 ] || fail "its words are CITY HOST HOST HOST"
city=$1
place=/var/lib/auction/$city
mkdir -p "$place"
if ! grep -q " $place glusterfs " /etc/fstab; then
    echo "$2:/$city $place glusterfs defaults,_netdev,backup-volfile-servers=$3:$4 0 0" >> /etc/fstab
fi
# systemd makes units of the lines of fstab, and the house's unit waits for that of its folder.
[ ! -d /run/systemd/system ] || systemctl daemon-reload
mount "$place"
