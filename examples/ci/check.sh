#!/bin/sh
# Checks the folder site next to this script, with the programs in bin, and writes results.xml for a server that shows JUnit's results.
cd "$(dirname "$0")" || exit
status=0
bin/sievebench-site lint site || status=$?
bin/sievebench-site check --junit results.xml site || status=$?
exit "$status"
