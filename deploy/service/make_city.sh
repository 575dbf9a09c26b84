#!/bin/sh
# make_city.sh CITY HOST: makes what is missing beside the house of a city, as root: its certificate, its accounts, the folder of its
# catalogue, and its server for nginx. setup.sh runs it, and so does each upgrade of the package. Whoever signed in by the browser's
# own window, as an older package had it, signs in by the form with the same password from then on.
set -eu
umask 077

fail() {
    echo "make_city.sh: $1" >&2
    exit 1
}

# It can make no others, so whoever trusts it trusts this host alone.
make_certificate() {
    openssl req -x509 -newkey ec -pkeyopt ec_paramgen_curve:prime256v1 -nodes -keyout key.pem -out cert.pem -days 365 -subj "/CN=$host" \
        -addext "subjectAltName=DNS:$host" -addext basicConstraints=critical,CA:FALSE 2> /dev/null
}

is_of_older_package() {
    [ -e site.conf ] && grep -q auth_basic_user_file site.conf
}

make_site() {
    if is_of_older_package; then
        mv site.conf site.conf.before
    fi
    [ ! -e site.conf ] || return 0
    sh "$share/make_site.sh" NAME="$city" HOST="$host" LISTEN=443 ORIGIN="https://$host" RUN="/run/auction/$city" \
        KEYS="/etc/auction/$city" PAGE="$share/page" FILES="$files" > site.conf
    chmod 644 site.conf
}

as_www() {
    runuser -u www-data -- "$@"
}

# The folder of what nginx serves beside the page, and of what the jobs write that run as nginx does. It is www-data's, who may have
# put links there, so www-data writes into it: root would write what they lead to.
make_files() {
    install -d -m 755 /var/lib/auction-page
    install -d -o www-data -g www-data -m 700 "$files"
    as_www mkdir -p "$files/addresses"
    as_www rm -f "$files/origin"
    echo "https://$host" | as_www tee "$files/origin" > /dev/null
    as_www ln -sfn "/run/auction/$city" "$files/run"
    # Jobs and nginx find the city's own words here.
    as_www ln -sfn "/etc/auction/$city" "$files/page"
    [ -e city.json ] || install -m 644 "$share/page/city.json" city.json
}

# Does statements of SQL as auction-sign-in, in whose folder accounts lies, and who may have put links there.
sql() {
    runuser -u auction-sign-in -- sqlite3 -bail "/var/lib/auction-sign-in/$city/accounts"
}

make_accounts() {
    command -v sqlite3 > /dev/null || fail "nobody can sign in to $city: install apache2-bin, apache2-utils and sqlite3, and run setup.sh"
    install -d -m 755 /var/lib/auction-sign-in
    install -d -o auction-sign-in -g auction-sign-in -m 700 "/var/lib/auction-sign-in/$city"
    sql < "$share/accounts.sql" > /dev/null
    ln -sfn "/var/lib/auction-sign-in/$city/accounts" accounts
}

# The statements that let in whoever is in users, with the number that members.map has. Apache takes their hashes too.
statements_of_users() {
    while IFS=: read -r login hash; do
        number=$(sed -n "s/^\"$host $login\" \([0-9]*\);.*/\1/p" members.map)
        case $login$hash in
            *[!A-Za-z0-9.\$/=]*) number= ;;
        esac
        if [ -n "$number" ]; then
            echo "INSERT OR IGNORE INTO account (login, member, hash) VALUES ('$login', $number, '$hash');"
        else
            echo "make_city.sh: a line of users is left out: $login" >&2
        fi
    done < users
}

take_over_users() {
    statements_of_users | sql
    mv users users.before
    mv members.map members.map.before
}

[ $# = 2 ] || fail "its words are CITY HOST"
city=$1 host=$2 share=/usr/share/auction files=/var/lib/auction-page/$1
install -d -m 755 /etc/auction "/etc/auction/$city"
cd "/etc/auction/$city"
[ -e cert.pem ] || make_certificate
echo "$host" > host
ln -sfn "/run/auction/$city" run
make_files
make_site
make_accounts
[ ! -e users ] || take_over_users
