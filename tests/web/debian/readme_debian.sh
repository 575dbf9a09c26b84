#!/bin/sh
# Runs as root in a plain Debian that has booted, in which /trial/repository has bin/auction, deploy/ and examples/: a new user
# does what deploy/gateway/README.md says. Prints lines of a name and what was printed, of which package.py knows what they have to be.
set -u
useradd --create-home --shell /bin/sh visitor
cp -r /trial/repository/. /home/visitor/
chown -R visitor: /home/visitor
cp /trial/gateway_readme.py /home/visitor/
cd /home/visitor || exit
exec runuser -u visitor -- python3 gateway_readme.py
