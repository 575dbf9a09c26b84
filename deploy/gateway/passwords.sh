# shellcheck shell=sh
# What account.sh and change_password.sh do with passwords, in the folder of a house. Both read this file.

# Runs a command as the owner of the folder in which accounts lies: that user may have put links there, and root would follow them.
as_owner() {
    if [ "$(id -u)" = 0 ]; then
        runuser -u "$(stat -c %U "$(dirname "$(readlink accounts || echo accounts)")")" -- "$@"
    else
        "$@"
    fi
}

# Does statements of SQL, of which the words in them are known to have no quotes, and prints rows.
sql() {
    printf '.timeout 20000\n%s\n' "$1" | as_owner sqlite3 -bail -separator ' ' accounts
}

# The hash of a password. bcrypt takes some 0.3 s of a processor, so that one who has the file guesses slowly.
hash_of() {
    printf '%s' "$1" | htpasswd -niBC 12 x | sed -n 's/^x://p'
}

# Gives a login a password. Whoever was signed in by the one before, and each token, is out.
set_password() {
    hash=$(hash_of "$2")
    [ -n "$hash" ] || return 1
    sql "BEGIN; UPDATE account SET hash = '$hash' WHERE login = '$1'; DELETE FROM session WHERE login = '$1'; COMMIT;"
}
