#!/bin/sh
# Plays the workloads of this folder over folders of the host, each under its condition, and compares the replies.
# The full folder is a small tmpfs: without the right to mount one, not even by `unshare`, it is left out.
set -eu

if [ $# -ne 1 ]; then
    echo "usage: examples/folder/play.sh PROGRAM" >&2
    exit 2
fi
program=$(realpath "$1")
here=$(realpath "$(dirname "$0")")
room=$(mktemp -d "${TMPDIR:-/tmp}/keel-folder-XXXXXX")
trap 'rm -rf "$room"' EXIT
export program here room

# Runs a workload over a folder, and compares.
cat >"$room/play" <<'PLAY'
name=$1
folder=$2
"$program" dir "$room/$folder" <"$here/$name.keel" >"$room/out" || exit 1
if cmp -s "$room/out" "$here/$name.out"; then echo "$name: as told"; else echo "$name: differs"; exit 1; fi
PLAY

mkdir "$room/failing"
(trap '' XFSZ; ulimit -f 1; exec sh "$room/play" failing-append failing)
sh "$room/play" failing-append-later failing

mkdir "$room/shared"
mkfifo "$room/lines"
"$program" dir "$room/shared" <"$room/lines" >"$room/first" &
first=$!
exec 3>"$room/lines"
echo open >&3
while [ ! -s "$room/first" ]; do sleep 0.1; done
sh "$room/play" second-program shared
exec 3>&-
wait "$first"

mkdir "$room/full"
if unshare -rm true 2>/dev/null; then
    unshare -rm sh -euc '
        mount -t tmpfs -o size=12k tmpfs "$room/full"
        sh "$room/play" full full
        sh "$room/play" full-later full
        mount -o remount,size=64k "$room/full"
        sh "$room/play" full-with-room full
    '
else
    echo "full: left out, since no tmpfs can be mounted"
fi
