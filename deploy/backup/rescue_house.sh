#!/bin/sh
# rescue_house.sh BROKEN NEW: makes a house of all rows that SQLite still reads in a file which `auction` calls Damaged. Nobody serves
# the file. It stays as it is, and NEW is a house with the settings of the old one, and with all tables and indexes of a house and no
# other. This is for where no copy is left: what SQLite can't read is lost, and rows that name others may lack them, which is told.
set -eu
umask 077

fail() {
    echo "rescue_house.sh: $1" >&2
    exit 1
}

# All that SQLite reads, as a database. A dump of a broken file ends by taking it all back.
read_rows() {
    cp "$1" "$folder/broken"
    [ ! -e "$1-wal" ] || cp "$1-wal" "$folder/broken-wal"
    sqlite3 "$folder/broken" .dump > "$folder/dump" 2> /dev/null || true
    sed 's/^ROLLBACK;.*/COMMIT;/' "$folder/dump" | sqlite3 "$folder/rows" 2> /dev/null || true
}

setting() {
    sqlite3 "$folder/rows" "SELECT $1 FROM house" 2> /dev/null || true
}

make_house() {
    { echo at,step && sqlite3 "$folder/rows" "SELECT at || ',' || step FROM band ORDER BY at"; } > "$folder/bands.csv"
    auction init "$folder/house" --bands "$folder/bands.csv" --rate "$(setting rate)" --zone "$(setting zone)" > /dev/null
}

fill_house() {
    tables=$(sqlite3 "$folder/house" "SELECT name FROM sqlite_schema WHERE type = 'table'")
    {
        echo "ATTACH '$folder/rows' AS old; BEGIN;"
        for table in $tables; do
            echo "DELETE FROM main.$table; INSERT INTO main.$table SELECT * FROM old.$table;"
        done
        echo "COMMIT;"
    } | sqlite3 -bail "$folder/house"
}

tell_faults() {
    ! grep -q '^ROLLBACK;' "$folder/dump" || echo "some rows can't be read, and are lost"
    sqlite3 "$folder/house" "SELECT count(*) FROM item" | sed 's/$/ items/'
    sqlite3 "$folder/house" "SELECT 'a row of ' || \"table\" || ' names a row of ' || parent || ' that is lost'
        FROM pragma_foreign_key_check GROUP BY 1"
}

[ $# = 2 ] || fail "its words are BROKEN NEW"
[ ! -e "$2" ] || fail "there already: $2"
folder=$(mktemp -d "$(dirname "$2")/rescued.XXXXXX")
trap 'rm -r "$folder"' EXIT
read_rows "$1"
[ "$(setting version)" = 2 ] || fail "no settings of a house of version 2 can be read in $1"
make_house
fill_house || fail "the rows are no house's"
tell_faults
mv "$folder/house" "$2"
