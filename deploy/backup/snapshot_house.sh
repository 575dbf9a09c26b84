#!/bin/sh
# snapshot_house.sh FOLDER COPY: copies a house by a snapshot of its folder, which is a subvolume of btrfs.
# FOLDER has house and house-wal, of one moment in the snapshot. COPY is one file, as copy_house.py makes it.
set -eu
here=$(cd "$(dirname "$0")" && pwd)
folder=$(realpath "$1")
snapshot=$folder.snapshot

drop() {
    btrfs -q subvolume delete "$snapshot"
}

exec 9< "$folder"
flock -n 9 || {
    echo "snapshot_house.sh: another one copies $folder" >&2
    exit 1
}
# One that was killed has left its snapshot.
[ ! -e "$snapshot" ] || drop
btrfs -q subvolume snapshot -r "$folder" "$snapshot"
trap drop EXIT
python3 "$here/copy_house.py" "$snapshot/house" "$2" 9<&-
