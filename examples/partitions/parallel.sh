#!/bin/sh
# parallel.sh TABLE VERB [WORD..]: a verb of pinepolo for each store of a table, by GNU parallel. PARALLEL has options of it:
#
#     PARALLEL='--jobs 2 --sshlogin one,two' parallel.sh /srv/table check --json
#
# Hosts reach the table under the same path, and its disks. The status is the number of stores that did not end well.
table=$1
shift
"${0%/*}/stores" "$table" | parallel --quote -I ,, pinepolo-data each --store ,, "$table" -- "$@"
