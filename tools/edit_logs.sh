#!/usr/bin/env bash
# Looks through what `rt ci` said of the must-fail edits. An edit that can't be applied, or that is refused because a place or a name no longer exists, shows
# nothing: it fits the code no more, or it changed the code's shape and not a fact. Exit status 1 where there is one.
# rt cuts what it prints of a reason, so that "record .. has no field" may end behind the record.
# Usage: tools/edit_logs.sh LOG
set -euo pipefail
log=$1
bad=$(grep -cE '^rt: must-fail [^ ]+: (BAD EDIT|NOT REFUSED|NOT TRIED)' "$log" || true)
grep -E '^rt: must-fail [^ ]+: (BAD EDIT|NOT REFUSED|NOT TRIED)' "$log" | cut -c1-240 || true
read=$(grep -cE '^rt: must-fail [^ ]+: refused' "$log" || true)
shape=$(grep -E '^rt: must-fail [^ ]+: refused' "$log" | grep -E 'that can be named from here|has no field|is not in scope|error: [^:]*: record .Rattle' || true)
[ -z "$shape" ] || { echo 'edit_logs: refused for their shape:'; cut -c1-240 <<< "$shape"; }
# the sum that rt gives, over what this run tried and what earlier ones did
if grep -qE '^rt: ok.*, [1-9][0-9]* bad' "$log"; then
    grep -E '^rt: ok' "$log"
    bad=$((bad + 1))
fi
echo "edit_logs: $read edits tried in this run, $bad faults, $([ -z "$shape" ] && echo 0 || wc -l <<< "$shape") refused for their shape"
[ "$bad" -eq 0 ] && [ -z "$shape" ]
