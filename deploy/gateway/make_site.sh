#!/bin/sh
# make_site.sh WORD=VALUE...: prints site.conf, the server of a house for nginx, with values for its words in capitals.
#
#   NAME     begins the names of the queues: a host name, or a city
#   HOST     the host name
#   LISTEN   the port, or an address and a port
#   ORIGIN   what a browser says as the origin of its own pages
#   RUN      the folder of the queue's sockets
#   KEYS     the folder of the certificate and its key
#   PAGE     the folder of the page
#   FILES    the folder of the catalogue and of addresses, with the city's own words in page/city.json
set -eu
here=$(cd "$(dirname "$0")" && pwd)
words=
for word in "$@"; do
    words="$words s|\\b${word%%=*}\\b|${word#*=}|g;"
done
# The first lines of the file tell what it is a template of.
sed "1,2c # The house of a city, by make_site.sh. All that isn't here is in the folder auction beside nginx.conf.
$words" "$here/site.conf"
