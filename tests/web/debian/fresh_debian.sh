#!/bin/sh
# Runs as root in a plain Debian that has booted with systemd and never had a house, and in which /trial has the package, a copy
# that plain_debian.sh took, and the members' tokens: it restores the city as deploy/backup/README.md says. Prints lines of
# a name and what was printed, of which package.py knows what they have to be.
set -u
cd /trial || exit
export DEBIAN_FRONTEND=noninteractive
. ./asking.sh

begun=$(date +%s)
systemctl is-system-running --wait > /dev/null
say "fresh, installed" "$(apt-get install -y --no-install-recommends ./newer/auction_*.deb > fresh.log 2>&1; echo $?)"
say "fresh, restored" "$(sh /usr/share/auction/restore_city.sh /trial/copy lindow > restored 2>&1; echo $?)"
wait_until 'ask lindow ben /me/bids/1 | grep -q bids'
say "fresh, the price" "$(price)"
say "fresh, a bid" "$(ask lindow ben /items/1/bids -d '{"maximum":700}')"
say "fresh, no sign-in" "$(curl -s -k --resolve lindow.example:443:127.0.0.1 https://lindow.example/api/house)"
say "fresh, owner" "$(stat -c '%U %a' /var/lib/auction/lindow/house)"
say "fresh, rights" "$(stat -c '%U:%G %a' /var/lib/auction-sign-in/lindow/accounts /etc/auction/lindow/key.pem | tr '\n' ' ')"
say "fresh, signed in" "$(sign_in lindow ben 'grünes Haus & 12+')"
say "fresh, ben" "$(signed_in lindow)"
say "fresh, his address" "$(browse lindow /address -H "$(bearer lindow ben)")"
say "fresh, restored again" "$(sh /usr/share/auction/restore_city.sh /trial/copy lindow > again 2>&1; echo $?)"
wait_until 'ask lindow ben /me/bids/1 | grep -q bids'
say "fresh, the price again" "$(price)"
say "fresh, a third time" "$(sh /usr/share/auction/restore_city.sh /trial/copy lindow 2>&1 | grep -o 'is there already')"
install -d -o auction -g auction -m 700 /var/lib/auction/tarn
runuser -u auction -- ln -s /etc/hostname /var/lib/auction/tarn/house
say "fresh, over a link" "$(sh /usr/share/auction/restore_city.sh /trial/copy tarn 2>&1 | grep -o 'is a link')"
say "fresh, killed by its filter" "$(journalctl -u auction@lindow -o cat | grep -c 'status=31/SYS')"
say "fresh, failed" "$(systemctl list-units --failed --plain --no-legend)"
say "seconds of a restore on a fresh machine, from its boot to the last bid" "$(($(date +%s) - begun))"
