#!/bin/sh
# build.sh PROGRAM FOLDER: makes the package auction_VERSION_ARCHITECTURE.deb in a folder, by dpkg-deb alone.
# The version is the program's, where VERSION is not another. SOURCE_DATE_EPOCH is the time of all files, so that a build can
# be repeated.
set -eu
program=$(realpath "$1") folder=$(realpath -m "$2")
cd "$(dirname "$0")/.."
version=${VERSION:-$("$program" --version)}
version=${version#auction }
architecture=$(dpkg --print-architecture)
date=${SOURCE_DATE_EPOCH:-$(git log -1 --format=%ct)}
export SOURCE_DATE_EPOCH="$date"
root=$(mktemp -d)
trap 'rm -rf "$root"' EXIT
umask 022
chmod 755 "$root"

# Puts files into a folder of the package, and of folders nothing.
put() {
    place=$root/$1
    shift
    mkdir -p "$place"
    for file in "$@"; do
        [ ! -d "$file" ] || continue
        case $(head -c 2 "$file" | tr -d '\0') in
            '#!') mode=755 ;;
            *) mode=644 ;;
        esac
        install -m "$mode" "$file" "$place/"
    done
}

# The gateway: what start.sh uses, but for the scripts that are for trials alone. nginx includes its files as auction/NAME.conf.
put_gateway() {
    find gateway/page -type d | while read -r page; do
        put "usr/share/auction/${page#gateway/}" "$page"/*
    done
    for part in catalogue notices; do
        put "usr/share/auction/$part" "gateway/$part"/*.py
    done
    for file in api errors form house maps server upstream; do
        put usr/share/auction/nginx "gateway/$file.conf"
    done
    for file in account.sh accounts.sql change_password.sh clock_is_right.sh make_site.sh passwords.sh queue.cfg \
        sign_in.conf site.conf; do
        put usr/share/auction "gateway/$file"
    done
    mkdir -p "$root/etc/nginx"
    ln -s /usr/share/auction/nginx "$root/etc/nginx/auction"
}

put_documents() {
    documents=$root/usr/share/doc/auction
    put usr/share/doc/auction package/copyright ../README.md ../CHANGELOG.md ../CONTRIBUTING.md ../crates.txt
    put usr/share/doc/auction/docs ../docs/*.md ../docs/*.png ../docs/openapi.yaml
    put usr/share/doc/auction/bench ../bench/README.md ../bench/TABLE.md ../bench/figures.json
    # Sources aren't in the package, so no link leads to one.
    sed -i 's,\[\([^]]*\)\](\(\.\./\)*\(crates\|tests\)/[^)]*),\1,g' "$documents"/docs/*.md
    for part in service backup gateway replica; do
        put "usr/share/doc/auction/deploy/$part" "$part"/*.md
    done
    put usr/share/doc/auction/deploy/gateway/catalogue gateway/catalogue/README.md
    put usr/share/doc/auction/examples service/prometheus.yml replica/keepalived.conf
    install -m 644 gateway/connections.nft "$documents/deploy/gateway/"
    put usr/share/auction ../examples/bands.csv
    printf 'auction (%s) unstable; urgency=medium\n\n  * Packaged.\n\n -- %s  %s\n' "$version" \
        "$(sed -n 's/^Maintainer: //p' package/control)" "$(date -u -R -d "@$date")" |
        gzip -9n > "$documents/changelog.gz"
    mkdir -p "$root/usr/share/man/man1"
    gzip -9n < ../docs/auction.1 > "$root/usr/share/man/man1/auction.1.gz"
}

put_completion() {
    install -D -m 644 package/completion.bash "$root/usr/share/bash-completion/completions/auction"
}

put_control() {
    mkdir "$root/DEBIAN"
    for script in postinst prerm postrm; do
        install -m 755 "package/$script" "$root/DEBIAN/"
    done
    (cd "$root" && find etc -type f | sed 's,^,/,' | sort > DEBIAN/conffiles)
    (cd "$root" && find usr lib -type f -print0 | LC_ALL=C sort -z | xargs -0 md5sum > DEBIAN/md5sums)
    sed -e "s/VERSION/$version/" -e "s/ARCHITECTURE/$architecture/" \
        -e "s/SIZE/$(du -k -s "$root" | cut -f 1)/" package/control > "$root/DEBIAN/control"
}

install -D -m 755 "$program" "$root/usr/bin/auction"
"${STRIP:-strip}" --strip-unneeded --remove-section=.comment --remove-section=.note "$root/usr/bin/auction"
put lib/systemd/system service/*.service service/*.timer
put etc/default package/auction
put etc/auction service/alarm
put usr/share/auction/nginx service/nginx/*
put usr/share/auction backup/copy_house.py backup/restore_house.py backup/copy_city.py backup/restore_city.sh \
    backup/rescue_house.sh backup/snapshot_house.sh
put usr/share/auction replica/*.sh
put usr/share/auction service/setup.sh service/make_city.sh service/units.sh service/watch.sh service/alerts.yml
put_gateway
put_documents
put_completion
put_control
find "$root" -exec touch -h -d "@$date" {} +
mkdir -p "$folder"
dpkg-deb --root-owner-group -Zxz --build "$root" "$folder/auction_${version}_$architecture.deb"
