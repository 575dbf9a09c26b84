# shellcheck shell=sh
# What plain_debian.sh and fresh_debian.sh ask by, who include it in a folder that has CITY.tokens, by which members ask.

say() {
    printf '%s: %s\n' "$1" "$2"
}

# Asks nginx for a page of a city.
browse() {
    city=$1 path=$2
    shift 2
    curl -s --max-time 60 --cacert "/etc/auction/$city/cert.pem" --resolve "$city.example:443:127.0.0.1" "$@" "https://$city.example$path"
}

# By what a member of a city shows who it is, as a program.
bearer() {
    echo "Authorization: Bearer $(sed -n "s/^$2 [0-9]* //p" "$1.tokens")"
}

# What a member of a city is answered through nginx.
ask() {
    city=$1 who=$2 path=$3
    shift 3
    browse "$city" "/api$path" -H "$(bearer "$city" "$who")" "$@"
}

# Signs in by the form as a browser does, which keeps a cookie, and prints where the answer leads.
sign_in() {
    browse "$1" /sign-in -o /dev/null -w '%{redirect_url}' -c "$1.cookies" -d "httpd_username=$2" --data-urlencode "httpd_password=$3"
}

# Whose statement is shown to the cookie that a sign-in has left.
signed_in() {
    browse "$1" /api/me/statement/1970-01-01/1970-01-01 -b "$1.cookies" | grep -o '"member":[0-9]*'
}

# Does a step of an operator, and prints how many seconds it took.
step() {
    step_name=$1 step_begun=$(date +%s%N)
    shift
    "$@"
    step_tenths=$((($(date +%s%N) - step_begun) / 100000000))
    say "seconds of $step_name" "$((step_tenths / 10)).$((step_tenths % 10))"
}

# Waits until a command succeeds, for two minutes at most.
wait_until() {
    for _ in $(seq 600); do
        if eval "$1"; then
            return 0
        fi
        sleep 0.2
    done
    say "waited in vain" "$1"
}

price() {
    ask lindow ben /items/1 | tr ',' '\n' | grep price
}
