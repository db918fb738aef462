#!/usr/bin/env bash
# check_examples.sh [PROGRAM | --try]: plays what stands in examples/ and in the folders below it, and compares byte for byte.
# NAME.script is the input (none: nothing), NAME.args has the words, one a line (none: run), and NAME.report is what is to
# come, with status 0, or with 6 where its last line is `full`. NAME.wrong is the report of a controller that has a fault:
# `audit`, with the options of NAME.args, has to answer just what NAME.verdict says, a line `no N`, with status 9.
# PROGRAM is crates/jobctl/out/jobctl if left out; --try runs the sources by `rt try`, unproved, and leaves out the folders
# below examples/, since each run takes it seconds: it plays examples/*.report alone.
# The last line is 'N of M reports are equal, K of L wrong reports are refused'. Status 0 says that all are, and that there
# is one of each. A file without those that belong to it, a verdict that is none, and a program that is not there are failures.
set -u -o pipefail
top=$(cd "$(dirname "$(readlink -f "$0")")/.." && pwd)
program=${1:-$top/crates/jobctl/out/jobctl}
room=$(mktemp -d)
trap 'rm -rf "$room"' EXIT
bad=0

complain() {
    echo "check_examples: $*" >&2
    bad=$((bad + 1))
}

# The files of examples/ that end so, as paths from there without the end.
deep=()
[ "$program" != --try ] || deep=(-maxdepth 1)
all_of() {
    (cd "$top/examples" && find . "${deep[@]}" -name "*.$1" -printf '%P\n') | sed "s/\.$1\$//" | sort
}

# Each of the first kind needs one of the second beside it.
each_has() {
    local path
    while read -r path; do
        [ -f "$top/examples/$path.$2" ] || complain "examples/$path.$1 has no .$2 beside it"
    done < <(all_of "$1")
}

# A case: what goes in, with which words, what is to come, and with which status.
mkdir "$room/cases"
declare -A kind_of path_of status_of
add_case() {
    local name=${2//\//__}$3
    kind_of[$name]=$1 path_of[$name]=$2 status_of[$name]=$4
    cat >"$room/cases/$name"
}

declare -A count=([report]=0 [wrong]=0) good=([report]=0 [wrong]=0)
each_has script report
each_has args report
each_has wrong report
each_has wrong verdict
each_has verdict wrong
while read -r path; do
    at=$top/examples/$path
    words=run
    [ ! -f "$at.args" ] || words=$(cat "$at.args")
    input=$at.script
    if [ ! -f "$input" ]; then
        [ "${words%%$'\n'*}" = generate ] || { complain "examples/$path.report has no .script beside it"; continue; }
        input=/dev/null
    fi
    status=0
    [ "$(tail -n 1 "$at.report")" != full ] || status=6
    name=${path//\//__}
    add_case report "$path" "" "$status" <"$input"
    echo "$words" >"$room/cases/$name.args"
    cp "$at.report" "$room/cases/$name.stdout"
    count[report]=$((count[report] + 1))
    if [ -f "$at.wrong" ] && [ -f "$at.verdict" ]; then
        count[wrong]=$((count[wrong] + 1))
        [[ "$(cat "$at.verdict")" =~ ^no\ [1-9][0-9]*$ ]] || { complain "examples/$path.verdict is no line 'no N'"; continue; }
        add_case wrong "$path" __wrong 9 <"$at.wrong"
        { echo audit && tail -n +2 <<<"$words"; } >"$room/cases/${name}__wrong.args"
        cp "$at.verdict" "$room/cases/${name}__wrong.stdout"
    fi
done < <(all_of report)
[ "${count[report]}" -gt 0 ] || complain "examples/ has no report"
[ "${count[wrong]}" -gt 0 ] || [ "$program" = --try ] || complain "examples/ has no wrong report"

if [ "$program" = --try ]; then
    (cd "$top/crates/jobctl" && rt try jobctl --cases "$room/cases") >"$room/printed" 2>"$room/log"
    for name in "${!kind_of[@]}"; do
        if grep -q "^case=$name run=ended status=${status_of[$name]} .*output=expected" "$room/log"; then
            good[${kind_of[$name]}]=$((good[${kind_of[$name]}] + 1))
        else
            complain "$name: $(grep "^case=$name " "$room/log" || tail -n 5 "$room/log")"
        fi
    done
elif [ ! -x "$program" ]; then
    complain "there is no program $program: build it by ./jobctl prove, or give --try"
else
    for name in "${!kind_of[@]}"; do
        mapfile -t words <"$room/cases/$name.args"
        timeout 60 "$program" "${words[@]}" <"$room/cases/$name" >"$room/printed" 2>"$room/said"
        status=$?
        if [ "$status" != "${status_of[$name]}" ]; then
            complain "examples/${path_of[$name]}: ${words[0]} has status $status and not ${status_of[$name]}: $(tail -n 1 "$room/said")"
        elif cmp -s "$room/cases/$name.stdout" "$room/printed"; then
            good[${kind_of[$name]}]=$((good[${kind_of[$name]}] + 1))
        else
            complain "examples/${path_of[$name]}: ${words[0]} has another answer than its .${kind_of[$name]} says:"
            diff "$room/cases/$name.stdout" "$room/printed" | cut -c1-160 | head -n 6 >&2
        fi
    done
fi
echo "${good[report]} of ${count[report]} reports are equal, ${good[wrong]} of ${count[wrong]} wrong reports are refused"
[ "$bad" = 0 ] && [ "${good[report]}" = "${count[report]}" ] && [ "${good[wrong]}" = "${count[wrong]}" ]
