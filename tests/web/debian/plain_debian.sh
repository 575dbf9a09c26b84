#!/bin/sh
# shellcheck disable=SC2016 # wait_until does its word later, when it looks.
# Runs as root in a plain Debian that has booted with systemd, and in which /trial has two packages: it installs the older
# one, sets up two cities as deploy/service/README.md says, runs them, installs the newer one over it, and removes it.
# Prints lines of a name and what was printed, of which package.py knows what they have to be.
set -u
cd /trial || exit
export DEBIAN_FRONTEND=noninteractive

. ./asking.sh

account() {
    command=$1 city=$2
    shift 2
    sh /usr/share/auction/account.sh "$command" "/etc/auction/$city" "$@"
}

password_of() {
    sed -n "s/^$2 [0-9]* //p" "$1.passwords"
}

install_older() {
    say installed "$(apt-get install -y --no-install-recommends ./older/auction_*.deb > install.log 2>&1; echo $?)"
}

set_up() {
    say "set up $1" "$(sh /usr/share/auction/setup.sh "$1" "$1.example" 2>&1 > /dev/null; echo $?)"
    {
        account adopt "$1" house 0
        account add "$1" ana Ana
        account add "$1" ben Ben
    } > "$1.passwords"
    for login in house ana ben; do
        account token "$1" "$login"
    done > "$1.tokens"
    say "members of $1" "$(cut -d ' ' -f 1,2 "$1.passwords" | tr '\n' ' ')"
    say "certificate of $1" "$(openssl x509 -in "/etc/auction/$1/cert.pem" -noout -ext basicConstraints | grep -o 'CA:.*')"
    wait_until "ask $1 ben /me/bids/1 | grep -q bids"
}

# Ben signs in by the form, chooses a password, and gets out. A wrong password opens nothing.
sign_in_and_out() {
    say "the form" "$(browse lindow / -o /dev/null -w '%{redirect_url}')"
    say "a wrong password" "$(sign_in lindow ben wrong)"
    say "nobody" "$(signed_in lindow)"
    say "signed in" "$(sign_in lindow ben "$(password_of lindow ben)")"
    say "ben" "$(signed_in lindow)"
    say "a password of his own" "$(browse lindow /password -o /dev/null -w '%{redirect_url}' -d httpd_username=ben -d httpd_method=POST \
        -d httpd_mimetype=text/plain --data-urlencode "httpd_password=$(password_of lindow ben)" --data-urlencode 'new=grünes Haus & 12+')"
    say "out by it" "$(signed_in lindow)"
    say "in by it" "$(sign_in lindow ben 'grünes Haus & 12+')"
    say "signed out" "$(browse lindow /sign-out -X POST -b lindow.cookies -o /dev/null -w '%{redirect_url}')"
    say "ben is out" "$(signed_in lindow)"
    # A new password ends a token.
    account token lindow ben > ben.token
    sed -i '/^ben/d' lindow.tokens
    cat ben.token >> lindow.tokens
}

trade() {
    end=$(($(date +%s) + 20))
    say category "$(ask lindow house /categories -d '{"name":"Books"}')"
    say item "$(ask lindow ana /items -d '{"category":1,"end":4102444800,"lot":"A1","start":500,"text":"","title":"Atlas"}')"
    say due "$(ask lindow ana /items -d "{\"category\":1,\"end\":$end,\"lot\":\"A2\",\"start\":500,\"text\":\"\",\"title\":\"Globe\"}")"
    say bid "$(ask lindow ben /items/1/bids -d '{"maximum":500}')"
    say "another page" "$(ask lindow ben /items/1/bids -d '{"maximum":900}' -H 'Origin: https://evil.example')"
    say "no sign-in" "$(curl -s -k --resolve lindow.example:443:127.0.0.1 https://lindow.example/api/house)"
    say "another city" "$(curl -s --cacert /etc/auction/tarn/cert.pem \
        --resolve tarn.example:443:127.0.0.1 -H "$(bearer lindow ben)" https://tarn.example/api/house)"
}

# Prometheus reads what the queues and the watches tell, by the rules of the package.
begin_to_watch() {
    cp /usr/share/doc/auction/examples/prometheus.yml /etc/prometheus/
    systemctl restart prometheus
}

# What Prometheus answers to a query, as its number, or nothing.
query() {
    curl -s --data-urlencode "query=$1" http://127.0.0.1:9090/api/v1/query | grep -o '"[0-9]*"\]' | tr -d '"]'
}

alarms() {
    journalctl -t auction-alarm -o cat | grep -c "^$1 has failed"
}

# A disk that is full for a moment: the house ends, is started anew, and goes on.
fill_disk() {
    systemctl stop auction@tarn
    cp -a /var/lib/auction/tarn /trial/tarn
    mount -t tmpfs -o size=700k,mode=700,uid=auction,gid=auction tmpfs /var/lib/auction/tarn
    cp -a /trial/tarn/. /var/lib/auction/tarn/
    systemctl start auction@tarn
    ask tarn house /categories -d '{"name":"Books"}' > /dev/null
    for lot in $(seq 1000); do
        ask tarn ana /items -d "{\"category\":1,\"end\":4102444800,\"lot\":\"$lot\",\"start\":500,\"text\":\"\",\"title\":\"Atlas\"}" > answer
        ! grep -q store answer || break
    done
    say "a full disk" "$(cat answer)"
    say "its line" "$(journalctl -u auction-queue@tarn -o cat | grep -o 'status 500 to POST /items.*: store' | sed 's/after [0-9]* ms/after/' | head -1)"
    mount -o remount,size=10m /var/lib/auction/tarn
    begun=$(date +%s)
    step "a start after a full disk" wait_until 'ask tarn ana /items/1 | grep -q Atlas'
    say "with room again" "$([ $(($(date +%s) - begun)) -lt 30 ]; echo $?)"
    say "the house said" "$(journalctl -u auction@tarn -o cat | grep -m 1 -x 'auction: file: Store')"
}

# A house that is damaged fails its unit, somebody is told, and another city goes on.
damage() {
    systemctl stop auction@tarn
    cp -a /var/lib/auction/tarn/house whole
    printf damaged > /var/lib/auction/tarn/house
    begun=$(date +%s)
    systemctl start auction@tarn
    wait_until 'systemctl is-failed --quiet auction@tarn'
    say "a damaged house" "$(systemctl is-failed auction@tarn)"
    echo "failed after $(($(date +%s) - begun)) s" >&2
    wait_until '[ "$(alarms auction@tarn.service)" -gt 0 ]'
    say "the other city" "$(ask lindow ben /items/1 | tr ',' '\n' | grep price)"
}

# What was seen meanwhile; then the house is whole again.
mend() {
    wait_until "[ -n \"\$(query 'ALERTS{alertname=\"AuctionAway\", alertstate=\"firing\", city=\"tarn\"}')\" ]"
    say "alerts" "$(query 'count(ALERTS{alertname="AuctionAway", alertstate="firing"})')"
    say "series" "$(query 'count({__name__=~"auction_.*|haproxy_backend_current_queue", city="lindow"})')"
    wait_until '[ "$(alarms auction-watch@tarn.service)" -gt 0 ]'
    say "the watch failed too" "$([ "$(alarms auction-watch@tarn.service)" -gt 0 ]; echo $?)"
    say "alarms" "$(alarms auction@tarn.service)"
    cp -a whole /var/lib/auction/tarn/house
    systemctl reset-failed auction@tarn
    systemctl start auction@tarn
    wait_until 'ask tarn ana /items/1 | grep -q Atlas'
    sed -i 's/^COUNT=.*/COUNT=none/' /etc/default/auction
    systemctl restart auction@tarn
    wait_until 'systemctl is-failed --quiet auction@tarn'
    say "started with wrong words" "$(($(systemctl show -P NRestarts auction@tarn) + 1))"
    sed -i 's/^COUNT=.*/COUNT=1000000/' /etc/default/auction
    systemctl stop auction@tarn
    umount /var/lib/auction/tarn
    systemctl reset-failed
    systemctl start auction@tarn
}

others_reach_nothing() {
    runuser -u nobody -- curl -s --max-time 5 --unix-socket /run/auction/lindow/queue.sock http://house/house > /dev/null 2>&1
    say "another user, the queue" "$?"
    runuser -u nobody -- curl -s --max-time 5 http://127.0.0.1:8080/house > /dev/null 2>&1
    say "another user, the house" "$?"
    nsenter -t "$(systemctl show -P MainPID auction@lindow)" -n -- curl -s -o /dev/null http://127.0.0.1:8081/session
    say "the sign-in answers the queue" "$?"
    runuser -u nobody -- curl -s --max-time 5 http://127.0.0.1:8081/session > /dev/null 2>&1
    say "another user, the sign-in" "$?"
    for file in /var/lib/auction/lindow/house /var/lib/auction-sign-in/lindow/accounts /etc/auction/lindow/key.pem; do
        runuser -u nobody -- cat "$file" > /dev/null 2>&1
        say "another user, $(basename "$file")" "$?"
    done
    runuser -u nobody -- ls /var/lib/auction-page/lindow/addresses > /dev/null 2>&1
    say "another user, addresses" "$?"
    nsenter -t "$(systemctl show -P MainPID auction@lindow)" -m -- ls /var/lib/auction > seen
    say "the house sees" "$(cat seen)"
}

# What is printed of the house once it is served again after what a line of shell does.
again() {
    before=$(systemctl show -P NRestarts auction@lindow)
    eval "$2"
    wait_until "[ \"\$(systemctl show -P NRestarts auction@lindow)\" -gt $before ]"
    say "$1" "$(price)"
}

starts_again() {
    again "after SIGTERM" 'systemctl kill --kill-whom=main -s TERM auction@lindow'
    again "after SIGKILL" 'systemctl kill --kill-whom=main -s KILL auction@lindow'
    sed -i 's/^COUNT=.*/COUNT=1/' /etc/default/auction
    systemctl restart auction@lindow
    price > /dev/null
    again "after its count" 'systemctl restart auction-queue@lindow'
    sed -i 's/^COUNT=.*/COUNT=1000000/' /etc/default/auction
    systemctl restart auction@lindow
}

expose() {
    for unit in auction auction-queue auction-sign-in auction-close auction-catalogue; do
        say "exposure of $unit" \
            "$(systemd-analyze security "$unit@lindow.service" --no-pager | tail -1 | grep -o '[0-9]*\.[0-9]')"
    done
}

pids() {
    systemctl show -P MainPID "auction@$1" "auction-queue@$1" nginx | tr '\n' ' '
}

header() {
    ask lindow ben /house -D - -o /dev/null | grep -ci "^$1:"
}

# A city's folder is shut again where its house starts.
shut_again() {
    chmod 755 /var/lib/auction/lindow
    chmod 644 /var/lib/auction/lindow/house
    systemctl restart auction@lindow
    say "shut again" "$(stat -c %a /var/lib/auction/lindow)"
    chmod 600 /var/lib/auction/lindow/house
}

# The timer has written the list of all items. A member that is outbid is mailed, where it has given its address.
tell_members() {
    printf '#!/bin/sh\ncat > /var/tmp/mail\n' > /usr/local/bin/keep-mail
    chmod 755 /usr/local/bin/keep-mail
    echo SENDMAIL=/usr/local/bin/keep-mail >> /etc/default/auction
    wait_until 'browse lindow /catalogue/about.json -H "$(bearer lindow ben)" | grep -q items'
    say "the list, to nobody" "$(browse lindow /catalogue/about.json)"
    account add lindow cid Cid > /dev/null
    account token lindow cid >> lindow.tokens
    ask lindow ana /items -d '{"category":1,"end":4102444800,"lot":"A3","start":500,"text":"","title":"Map"}' > /dev/null
    ask lindow ben /items/3/bids -d '{"maximum":500}' > /dev/null
    say "an address" "$(browse lindow /address -X PUT -d ben@lindow.example -H "$(bearer lindow ben)" -o /dev/null -w '%{http_code}')"
    systemctl start auction-catalogue@lindow
    ask lindow cid /items/3/bids -d '{"maximum":900}' > /dev/null
    systemctl start auction-catalogue@lindow
    wait_until '[ -s /var/tmp/mail ]'
    say "a mail to" "$(sed -n 's/^To: //p' /var/tmp/mail)"
    say "its link" "$(grep -o 'https://lindow.example/[^ ]*' /var/tmp/mail | head -1)"
}

# Thousands of connections that say nothing, and a member's read beside them.
hold_connections() {
    python3 hold.py 3000 20 > held &
    sleep 5
    begun=$(date +%s%N)
    ask lindow ben /items/1 > /dev/null
    spent=$((($(date +%s%N) - begun) / 1000000))
    wait
    say "beside silent connections" "$([ "$(cat held)" -ge 3000 ] && [ "$spent" -lt 1000 ]; echo $?)"
    echo "a read beside $(cat held) silent connections took $spent ms" >&2
}

# A city as an older package had it, whose members signed in by the browser's own window.
make_older_city() {
    install -d -m 755 /etc/auction/fell
    install -d -o auction -g auction -m 700 /var/lib/auction/fell
    runuser -u auction -- auction init /var/lib/auction/fell/house --bands /usr/share/auction/bands.csv --rate 1000 --zone UTC0 > /dev/null
    systemctl enable --quiet --now auction@fell auction-queue@fell
    wait_until 'curl -s --unix-socket /run/auction/fell/queue.sock -H "x-member: 0" -d "{\"name\":\"dora\"}" http://house/members | grep -q member'
    echo fell.example > /etc/auction/fell/host
    echo "dora:$(echo an-old-password | openssl passwd -6 -stdin)" > /etc/auction/fell/users
    echo '"fell.example dora" 1;' > /etc/auction/fell/members.map
    printf 'server {\n    auth_basic_user_file /etc/auction/fell/users;\n}\n' > /etc/auction/fell/site.conf
}

# A link that whoever runs as www-data has put where an upgrade writes.
lay_link() {
    echo kept > /etc/auction/kept
    runuser -u www-data -- ln -sf /etc/auction/kept /var/lib/auction-page/lindow/origin
}

install_newer() {
    say upgraded "$(apt-get install -y --no-install-recommends ./newer/auction_*.deb > upgrade.log 2>&1; echo $?)"
    wait_until 'ask lindow ben /house | grep -q clock'
}

upgrade() {
    make_older_city
    lay_link
    for unit in auction@lindow auction-queue@lindow auction@tarn; do
        systemctl show -P MainPID "$unit" > "$unit.before"
    done
    say "header of the older package" "$(header referrer-policy)"
    step "an upgrade with three cities" install_newer
    for unit in auction@lindow auction-queue@lindow auction@tarn; do
        say "the same $unit" "$([ "$(systemctl show -P MainPID "$unit")" = "$(cat "$unit.before")" ]; echo $?)"
    done
    say "program that runs" "$(readlink "/proc/$(systemctl show -P MainPID auction@lindow)/exe")"
    say "behind a link" "$(cat /etc/auction/kept)"
    say "in its place" "$(cat /var/lib/auction-page/lindow/origin)"
    say "header of the newer package" "$(header referrer-policy)"
    say "after the upgrade" "$(price)"
    wait_until 'browse fell /sign-in.html | grep -q Password'
    say "an old password" "$(sign_in fell dora an-old-password)"
    say "is the same member's" "$(signed_in fell)"
}

# What the house of a city answers to a command, as a status.
command_status() {
    ask "$1" house /categories -d "{\"name\":\"$2\"}" -o /dev/null -w '%{http_code}'
}

# One close in the year 2036, as of a machine that booted with a wrong clock. The kept connection would hold up who comes beside it.
close_ahead() {
    systemctl stop auction-close@tarn.timer auction-watch@tarn.timer auction-queue@tarn
    nsenter -t "$(systemctl show -P MainPID auction@tarn)" -n -- \
        curl -s -X POST http://127.0.0.1:8080/close -H 'x-member: 0' -H 'x-moment: 2082758400' > /dev/null
    systemctl start auction-queue@tarn auction-watch@tarn.timer
}

newest() {
    for copy in "/var/backups/auction/$1"/2*; do
        newest=$copy
    done
    echo "$newest"
}

restore_tarn() {
    say "restored after it" "$(sh /usr/share/auction/restore_city.sh "$(newest tarn)" tarn > restored.log 2>&1; echo $?)"
    wait_until 'ask tarn ana /house | grep -q clock'
}

clock_ahead() {
    systemctl start auction-copy@tarn
    close_ahead
    say "a clock ahead" "$(ask tarn house /categories -d '{"name":"Maps"}')"
    say "a read meanwhile" "$(ask tarn ana /house -o /dev/null -w '%{http_code}')"
    wait_until 'journalctl -u auction-watch@tarn -o cat | grep -q "no command is let through"'
    say "the watch says" "$(journalctl -u auction-watch@tarn -o cat | grep -o 'no command is let through' | head -1)"
    step "a restore in place" restore_tarn
    cat restored.log
    say "a command after it" "$(command_status tarn Maps)"
}

# A house whose last command is three days old.
days_behind() {
    install -d -o auction -g auction -m 700 /var/lib/auction/mere
    runuser -u auction -- auction init /var/lib/auction/mere/house --bands /usr/share/auction/bands.csv --rate 1000 --zone UTC0 > /dev/null
    runuser -u auction -- auction serve /var/lib/auction/mere/house --port 8090 --count 2 > /dev/null &
    wait_until 'curl -s -X POST http://127.0.0.1:8090/close -H "x-member: 0" -H "x-moment: $(($(date +%s) - 259200))" > /dev/null'
    curl -s http://127.0.0.1:8090/house > /dev/null
    wait
    sh /usr/share/auction/setup.sh mere mere.example > /dev/null 2>&1
    account adopt mere house 0 > mere.passwords
    account token mere house > mere.tokens
    wait_until 'ask mere house /house | grep -q clock'
    say "days behind" "$(ask mere house /categories -d '{"name":"Maps"}')"
    say "both clocks" "$(sh /usr/share/auction/clock_is_right.sh /etc/auction/mere | grep -c 'the clock of the house')"
    say "another day" "$(sh /usr/share/auction/clock_is_right.sh /etc/auction/mere 2020-01-01 > /dev/null 2>&1; echo $?)"
    say "the right day" "$(sh /usr/share/auction/clock_is_right.sh /etc/auction/mere "$(date +%F)" > /dev/null 2>&1; echo $?)"
    say "a command then" "$(command_status mere Maps)"
    systemctl reset-failed
}

# A city is taken over from another server, which ends after some seconds and has the house's lock until then.
take_over() {
    for unit in auction-close@mere.timer auction-watch@mere.timer auction-copy@mere.timer auction-queue@mere auction@mere; do
        systemctl disable --quiet --now "$unit"
    done
    runuser -u auction -- auction serve /var/lib/auction/mere/house --port 8090 --count 1000 > /dev/null 2>&1 &
    other=$!
    sleep 1
    (sleep 6; kill "$other") &
    begun=$(date +%s)
    say "taken over" "$(sh /usr/share/auction/take_over.sh mere > /dev/null 2>&1; echo $?)"
    say "not before the other one ended" "$([ $(($(date +%s) - begun)) -ge 5 ]; echo $?)"
    wait_until 'ask mere house /house | grep -q clock'
    say "a command after the take-over" "$(command_status mere Prints)"
}

# A copy for fresh_debian.sh, of which the timer makes one each hour.
copy() {
    step "a copy" systemctl start auction-copy@lindow
    say copied "$(systemctl show -P Result auction-copy@lindow)"
    say "its age" "$(journalctl -u auction-copy@lindow -o cat | grep -o 'the newest copy is .*, [0-9]* minutes old' | sed 's/is .*,/is/')"
    say "a copy has" "$(cd "$(newest lindow)" && find . -type f | sort | tr '\n' ' ')"
    cp -a "$(newest lindow)" /trial/copy
}

remove() {
    say removed "$(apt-get remove -y auction > remove.log 2>&1; echo $?)"
    say "nginx after it" "$(nginx -t > /dev/null 2>&1; echo $?)"
    say "active after it" "$(systemctl list-units --plain --no-legend 'auction*' | tr '\n' ' ')"
    say "installed again" "$(apt-get install -y --no-install-recommends ./newer/auction_*.deb > again.log 2>&1; echo $?)"
    wait_until 'ask lindow ben /house | grep -q clock'
    say "after it" "$(price)"
    say purged "$(apt-get purge -y auction > purge.log 2>&1; echo $?)"
    say left "$(find / -xdev -path /trial -prune -o -path /proc -prune -o -path /usr/share/doc -prune -o -name '*auction*' -print | sort | tr '\n' ' ')"
    say "the houses" "$(find /var/lib/auction -name house -size +0 | sort | tr '\n' ' ')"
}

systemctl is-system-running --wait > /dev/null
step "an installation" install_older
step "the first city" set_up lindow
step "another city" set_up tarn
sign_in_and_out
begin_to_watch
trade
fill_disk
damage
others_reach_nothing
starts_again
wait_until 'ask lindow ben /items/2 | grep -q "\"state\":\"unsold\""'
say "closed by the timer" "$(ask lindow ben /items/2 | tr ',' '\n' | grep state)"
expose
tell_members
hold_connections
shut_again
mend
say failed "$(systemctl list-units --failed --plain --no-legend)"
upgrade
clock_ahead
days_behind
take_over
copy
remove
say end "$(systemctl list-units --failed --plain --no-legend)"
