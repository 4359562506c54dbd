#!/bin/sh
# What the scripts of this folder share. HOSTS is a file with a line for each site: its number, and its folder on a host.
#
#     1 ops@h1:/srv/site1
#
# Ports, keys and other names of hosts are for ~/.ssh/config. SSH may name another command that reaches a host.
SSH=${SSH:-ssh -o BatchMode=yes -o ConnectTimeout=10 -o ServerAliveInterval=15}

fail() {
    echo "${0##*/}: $1" >&2
    exit 2
}

# Fails if a file can't be read.
readable() {
    if ! [ -f "$1" ] || ! [ -r "$1" ]; then fail "$1 is no file that can be read"; fi
}

# Prints the lines of HOSTS without comments, or fails.
hosts_of() {
    readable "$1"
    hosts=$(sed 's/#.*//; s/[[:blank:]]*$//; /^$/d; s/[[:blank:]][[:blank:]]*/ /' "$1")
    [ -n "$hosts" ] || fail "$1 has no sites"
    wrong=$(echo "$hosts" | grep -Evx '([1-9]|1[0-6]) [A-Za-z0-9_][A-Za-z0-9@._-]*:/[A-Za-z0-9/._-]+' | head -n 1)
    [ -z "$wrong" ] || fail "$1: not a site from 1 to 16 and HOST:/FOLDER of letters, digits and /._-: $wrong"
    twice=$(echo "$hosts" | cut -d ' ' -f 1 | sort | uniq -d | head -n 1)
    [ -z "$twice" ] || fail "$1 has site $twice twice"
    echo "$hosts"
}

# Prints a line for each file of a store, its site and its name, as the catalog says, or fails.
files_of() {
    files=$(pinepolo design --json -- "$1" | python3 -c '
import json, sys
for site in json.load(sys.stdin)["sites"]:
    for name in site["files"]:
        print(site["site"], name)' 2> /dev/null) || fail "pinepolo design $1 gave no answer"
    for site in $(echo "$files" | cut -d ' ' -f 1 | uniq); do
        echo "$hosts" | grep -q "^$site " || fail "site $site of $1 has no host"
    done
    echo "$files"
}

# Calls a function for the sites of $2 at once, as `$1 SITE HOST FOLDER`. What it prints comes behind the number of its site.
# The status is 0, or 1 if a call failed.
on_sites() {
    printed=$(mktemp -d) calls='' result=0
    for site in $2; do
        place=$(echo "$hosts" | sed -n "s/^$site //p")
        ("$1" "$site" "${place%%:*}" "${place#*:}") > "$printed/$site" 2>&1 < /dev/null &
        calls="$calls $site:$!"
    done
    for call in $calls; do
        if wait "${call#*:}"; then said=ok; else said=FAILED result=1; fi
        sed "s/^/site ${call%:*}  /" "$printed/${call%:*}"
        echo "site ${call%:*}  $said"
    done
    rm -r "$printed"
    return $result
}
