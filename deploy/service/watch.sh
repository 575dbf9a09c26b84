#!/bin/sh
# watch.sh CITY: asks the house of a city what it is, by its queue, and writes what Prometheus reads of it to
# /run/auction-watch/CITY.prom. Ends with 1 where no answer comes within a minute, or another one than a house's; where
# the queue lets no command through, since the two clocks are apart; and where nobody can sign in.
set -u
city=$1
unit=auction@$city.service

# What the house says: a page with its clock, or an error.
asked() {
    curl --silent --show-error --max-time 60 --unix-socket "/run/auction/$city/queue.sock" --header 'x-member: 0' http://house/house
}

# When the newest copy was begun.
newest_copy() {
    for copy in "/var/backups/auction/$city"/[0-9]*; do
        newest=$copy
    done
    [ ! -e "$newest" ] || date -d "${newest##*/}" +%s
}

connections() {
    curl --silent --max-time 5 http://127.0.0.1:9180/nginx | sed -n 's/^Active connections: \([0-9]*\).*/\1/p'
}

# A line of Prometheus, where there is a number.
write() {
    [ -z "$2" ] || echo "$1 $2"
}

write_metrics() {
    {
        write auction_up "$1"
        write auction_watched_seconds "$(date +%s)"
        write auction_clock_seconds "$clock"
        write auction_disk_free_bytes "$(df --block-size=1 --output=avail "/var/lib/auction/$city" | tail -1)"
        write auction_newest_copy_seconds "$(newest_copy)"
        write auction_connections "$(connections)"
    } > "/run/auction-watch/$city.begun"
    mv "/run/auction-watch/$city.begun" "/run/auction-watch/$city.prom"
}

# Whether the house's clock and the machine's are within a day. A new house has 0.
is_near() {
    apart=$(($(date +%s) - $1))
    [ "$1" = 0 ] || { [ "$apart" -le 86400 ] && [ "$apart" -ge -86400 ]; }
}

fail_by_clock() {
    echo "no command is let through: the clock of the house is $(date -d "@$clock" +%FT%T), the machine's $(date +%FT%T)"
    exit 1
}

# Whether Apache says of somebody who shows nothing that it is nobody.
signs_in() {
    status=$(curl --silent --max-time 30 --output /dev/null --write-out '%{http_code}' \
        --unix-socket "/run/auction/$city/session.sock" http://house/session)
    [ "$status" = 401 ]
}

fail_by_sign_in() {
    echo "nobody can sign in: the sign-in of $city answers $status"
    exit 1
}

# A queue that is started anew, as by an upgrade, breaks off what it has begun. A minute that has passed, 28, is long enough.
answer=$(asked) || [ $? = 28 ] || {
    sleep 2
    answer=$(asked)
}
clock=$(echo "$answer" | sed -n 's/.*"clock":\([0-9]*\),.*/\1/p')
if [ -n "$clock" ]; then
    write_metrics 1
    is_near "$clock" || fail_by_clock
    signs_in || fail_by_sign_in
    exit 0
fi
write_metrics 0
echo "the house of $city answers: ${answer:-nothing}"
if [ "$answer" = '{"error":"store"}' ]; then
    # A house whose file failed ends with its connection. Until then it answers nothing else.
    echo "it is started anew"
    systemctl restart "$unit"
    exit 0
fi
# One that failed thirty times may start now. Within ten minutes of those systemd refuses.
if systemctl is-failed --quiet "$unit"; then
    systemctl start "$unit"
fi
exit 1
