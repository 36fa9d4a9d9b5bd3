#!/bin/sh
# Runs the program that was built where files and the standard output fail, which no stored run can show.
set -u
cd "$(dirname "$0")/.." || exit 1
program=$PWD/crates/xcr/out/xcr
drill=$PWD/docs/drill
shop=$PWD/docs/shop
folder=$(mktemp -d) || exit 1
trap 'rm -rf "$folder"' EXIT
cp crates/xcr/data/logs crates/xcr/data/script "$folder" && cd "$folder" || exit 1
failed=0

# shows NAME STATUS OUTPUT WORD..: the run of the words ends with the status, and OUTPUT is what it wrote
shows() {
    name=$1 status=$2 output=$3
    shift 3
    found=$("$program" "$@")
    code=$?
    if [ "$code" -eq "$status" ] && [ "$found" = "$output" ]; then
        echo "ok: $name"
    else
        echo "FAILED: $name: status $code for $status, output: $found"
        failed=1
    fi
}

shows 'logs that are not there fail at their first read' 5 '' replay none script
shows 'a script that is not there fails at its first read' 5 '' replay logs none
shows 'a folder cannot be read' 5 '' replay . script
shows 'no words form no command' 1 'usage: the words after xcr do not form a command'
shows 'a word that is no UTF-8 is in no command' 1 'usage: the words after xcr do not form a command' \
    audit "$(printf 'logs\377')"

mkfifo slow || exit 1
python3 -c '
import os, sys, time
out = os.open("slow", os.O_WRONLY)
for byte in open("logs", "rb").read():
    os.write(out, bytes([byte]))
    time.sleep(0.001)
' &
shows 'a file that gives one byte at a time is read to its end' 0 'log 0 2 11 open
agrees 1' audit slow
wait

mkfifo pipe || exit 1
found=$(timeout 20 "$program" audits pipe)
code=$?
if [ "$code" -eq 1 ]; then
    echo 'ok: no file is opened where the words form no command'
else
    echo "FAILED: no file is opened where the words form no command: status $code for 1"
    failed=1
fi

mkfifo 0 1 || exit 1
found=$(timeout 20 "$program" gen 0 1)
code=$?
if [ "$code" -eq 0 ] && [ "$found" = 'gen 0 1 records 6 commits 0 safe 3 rows 0 digest 0' ]; then
    echo 'ok: no file is opened for a generated workload'
else
    echo "FAILED: no file is opened for a generated workload: status $code for 0, output: $found"
    failed=1
fi

echo 'xclog 3' >bad
found=$(timeout 20 "$program" replay bad pipe)
code=$?
if [ "$code" -eq 2 ]; then
    echo 'ok: no script is opened where the logs are refused'
else
    echo "FAILED: no script is opened where the logs are refused: status $code for 2"
    failed=1
fi

"$program" replay logs script >/dev/full
code=$?
if [ "$code" -eq 6 ]; then
    echo 'ok: a full device fails at the first write'
else
    echo "FAILED: a full device fails at the first write: status $code for 6"
    failed=1
fi
if "$program" replay "$drill/logs" "$drill/script" | cmp -s - "$drill/lines"; then
    echo 'ok: the drill of the documents prints its lines'
else
    echo 'FAILED: the drill of the documents prints its lines'
    failed=1
fi
if "$program" make "$shop/source" | cmp -s - "$shop/logs" &&
    "$program" replay "$shop/logs" "$shop/script" | cmp -s - "$shop/lines"; then
    echo 'ok: the logs of the shop are made, and their replay prints its lines'
else
    echo 'FAILED: the logs of the shop are made, and their replay prints its lines'
    failed=1
fi
exit "$failed"
