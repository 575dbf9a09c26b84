# shellcheck shell=sh
# setup.sh and the scripts of the package read this file.

# The units that serve a city.
units_of() {
    echo "auction@$1.service auction-queue@$1.service auction-sign-in@$1.service auction-close@$1.timer auction-watch@$1.timer" \
        "auction-copy@$1.timer auction-catalogue@$1.timer"
}

# Enables those that an older package hadn't, where the house is enabled.
enable_with_house() {
    ! systemctl is-enabled --quiet "auction@$1.service" ||
        systemctl enable --quiet "auction-sign-in@$1.service" "auction-catalogue@$1.timer"
}
