#!/bin/sh
# account.sh COMMAND HOUSE [LOGIN [WHO]]: who may sign in to a house. HOUSE is the folder with the file accounts:
# FOLDER/houses/HOST of start.sh, or /etc/auction/CITY of setup.sh. Passwords and tokens are printed once, and nowhere kept.
#
#   add HOUSE LOGIN NAME       registers a member under its public name, and lets it sign in
#   adopt HOUSE LOGIN NUMBER   lets a member sign in that the house knows already; the number 0 is who runs the house
#   password HOUSE LOGIN       gives it a new password; all that was signed in by the old one is out, tokens too
#   token HOUSE LOGIN          gives it a token for programs, in place of the one before
#   lock HOUSE LOGIN           keeps it out, whatever it is signed in by
#   unlock HOUSE LOGIN         lets it in again
#   remove HOUSE LOGIN         forgets the login; the member stays in the house, and can be adopted again
#   list HOUSE                 has a line for each: login, number, and whether it is locked or has a token
set -eu
here=$(cd "$(dirname "$0")" && pwd)
. "$here/passwords.sh"
umask 077
LC_ALL=C

fail() {
    echo "account.sh: $1" >&2
    exit 1
}

usage() {
    sed -n 's/^# \{0,1\}//; 2,12p' "$0" >&2
    exit 2
}

# What the house answers to a path, as to itself.
ask_house() {
    path=$1
    shift
    curl -s -m 60 --unix-socket run/queue.sock -H 'x-member: 0' "$@" "http://house$path" || fail "the house isn't served"
}

# The number that a key has in an answer.
number_of() {
    printf '%s' "$2" | sed -n "s/.*\"$1\":\([0-9]*\).*/\1/p"
}

in_json() {
    printf '%s' "$1" | sed 's/[\\"]/\\&/g'
}

in_sql() {
    printf '%s' "$1" | sed "s/'/''/g"
}

has_account() {
    [ "$(sql "SELECT count(*) FROM account WHERE login = '$1';")" = 1 ]
}

check_login() {
    case $1 in
        "" | [!a-z0-9]* | *[!a-z0-9._-]*) fail "a login is of small letters, digits, dots and hyphens: $1" ;;
    esac
    [ ${#1} -le 40 ] || fail "a login has at most 40 letters: $1"
}

# Sixteen letters and digits that nobody confuses: 79 random bits.
random_password() {
    head -c 1000 /dev/urandom | tr -dc 'a-hjkmnp-z2-9' | head -c 16 | sed 's/..../&-/g; s/-$//'
}

# Lets a member of a number sign in, and prints the line for it.
let_in() {
    password=$(random_password)
    hash=$(hash_of "$password")
    [ -n "$hash" ] || fail "htpasswd made no hash"
    sql "BEGIN;
        INSERT INTO account (login, member, hash) VALUES ('$1', $2, '$hash');
        DELETE FROM begun WHERE login = '$1';
        COMMIT;"
    echo "$1 $2 $password"
}

# The number of the member with a name, among those that came after so many.
find_member() {
    house=$(ask_house /house)
    for number in $(seq $(($2 + 1)) "$(number_of members "$house")"); do
        member=$(ask_house "/members/$number")
        case $member in
            *"\"name\":\"$(in_json "$1")\""*) echo "$number" ;;
        esac
    done
}

# The logins that mend let in.
mended=" "

# Ends what an add that was stopped had begun: the house has registered the member by then, or it has not.
mend() {
    for login in $(sql "SELECT login FROM begun;"); do
        name=$(sql "SELECT name FROM begun WHERE login = '$login';")
        number=$(find_member "$name" "$(sql "SELECT members FROM begun WHERE login = '$login';")")
        if [ -n "$number" ]; then
            echo "account.sh: an earlier run had registered $login, and let nobody in: this one does" >&2
            let_in "$login" "$number"
            mended="$mended$login "
        else
            sql "DELETE FROM begun WHERE login = '$login';"
        fi
    done
}

add() {
    check_login "$1"
    ! has_account "$1" || fail "there already: $1"
    house=$(ask_house /house)
    sql "INSERT INTO begun VALUES ('$1', '$(in_sql "$2")', $(number_of members "$house"));"
    answer=$(ask_house /members -d "{\"name\":\"$(in_json "$2")\"}")
    number=$(number_of member "$answer")
    if [ -z "$number" ]; then
        sql "DELETE FROM begun WHERE login = '$1';"
        fail "the house refused $2: $answer"
    fi
    let_in "$1" "$number"
}

adopt() {
    check_login "$1"
    ! has_account "$1" || fail "there already: $1"
    case $2 in
        "" | *[!0-9]* | 0?*) fail "no number of a member: $2" ;;
    esac
    [ "$(sql "SELECT count(*) FROM account WHERE member = $2;")" = 0 ] || fail "member $2 has a login already"
    [ "$2" = 0 ] || [ "$(number_of member "$(ask_house "/members/$2")")" = "$2" ] || fail "no member $2 in the house"
    let_in "$1" "$2"
}

give_password() {
    password=$(random_password)
    set_password "$1" "$password"
    echo "$1 $(sql "SELECT member FROM account WHERE login = '$1';") $password"
}

# A token is the key of a session without an end, by the mark of sign_in.conf.
give_token() {
    token=$(cat /proc/sys/kernel/random/uuid)
    mark=$(printf '%s:signed-in' "$1" | md5sum | cut -c -32)
    sql "BEGIN;
        DELETE FROM session WHERE login = '$1' AND expiry = 0;
        INSERT INTO session (key, login, mark, expiry) VALUES ('$token', '$1', '$mark', 0);
        COMMIT;"
    echo "$1 $(sql "SELECT member FROM account WHERE login = '$1';") $token"
}

list() {
    sql "SELECT login || ' ' || member || iif(is_locked, ' locked', '')
            || iif(EXISTS (SELECT 1 FROM session WHERE session.login = account.login AND expiry = 0), ' token', '')
        FROM account ORDER BY member;
        SELECT login || ' is begun, and the next add ends it' FROM begun;"
}

# Does what is done with a login that is there.
change() {
    check_login "$2"
    has_account "$2" || fail "no such login: $2"
    case $1 in
        password) give_password "$2" ;;
        token) give_token "$2" ;;
        lock) sql "UPDATE account SET is_locked = 1 WHERE login = '$2';" ;;
        unlock) sql "UPDATE account SET is_locked = 0 WHERE login = '$2';" ;;
        remove) sql "BEGIN; DELETE FROM session WHERE login = '$2'; DELETE FROM account WHERE login = '$2'; COMMIT;" ;;
    esac
}

case ${1-} in
    add | adopt) [ $# = 4 ] || usage ;;
    password | token | lock | unlock | remove) [ $# = 3 ] || usage ;;
    list) [ $# = 2 ] || usage ;;
    *) usage ;;
esac
cd "$2" 2> /dev/null || fail "no folder $2"
[ -e accounts ] || fail "no file accounts in $2: start.sh or setup.sh makes it"
# One run at a time.
exec 9< .
flock 9
case $1 in
    add)
        mend
        case $mended in
            *" $3 "*) ;;
            *) add "$3" "$4" ;;
        esac
        ;;
    adopt)
        mend
        adopt "$3" "$4"
        ;;
    list) list ;;
    *) change "$1" "$3" ;;
esac
