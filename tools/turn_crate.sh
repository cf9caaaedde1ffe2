#!/usr/bin/env bash
# usage: tools/turn_crate.sh CRATE   names of the goals, then tools/answers.py, then a check; what is left is in /tmp/port/check-CRATE.log
set -u
cd "$(dirname "$0")/.."
c=$1
mkdir -p /tmp/port
(cd crates/$c && rm -rf /tmp/names-$c && rt check --generated /tmp/names-$c --old-names >/tmp/port/gen-$c.log 2>&1)
[ -f /tmp/names-$c/names.json ] || { echo "no names for $c"; grep error /tmp/port/gen-$c.log | head -20 | cut -c1-300; exit 1; }
python3 tools/answers.py "$c"
(cd crates/$c && rt fmt >/dev/null 2>&1; rt check >/tmp/port/check-$c.log 2>&1)
grep -E "error|^fn |^logic=" /tmp/port/check-$c.log | grep -v ": proved" | cut -c1-400
