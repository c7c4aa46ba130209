#!/bin/sh
# Runs the soak against a site of its own. See README.md.
#
# usage: soak.sh PROGRAM [SECONDS [DATAGRAMS [SEED [FORGED [paced|flood]]]]]
set -e
here=$(dirname "$(readlink -f "$0")")
program=$(readlink -f "${1:?usage: soak.sh PROGRAM [SECONDS [DATAGRAMS [SEED [FORGED [paced|flood]]]]]}")
folder=$(mktemp -d)
site=
trap 'test -n "$site" && kill "$site" 2>/dev/null; rm -rf "$folder"' EXIT INT TERM
cc -O2 -Wall -o "$folder/soak" "$here/soak.c"
cat > "$folder/site.toml" <<END
listen = "127.0.0.1:5433"
upstreams = ["127.0.0.1:5434"]
peers = ["127.0.0.1:5435"]
sweep = 30
END
"$program" serve --config "$folder/site.toml" --key "$(printf '%064d' 0)" --turns 4294967295 > "$folder/out" &
site=$!
sleep 1
"$folder/soak" "$site" 5433 5434 5435 "$here/datagrams.txt" \
    "${2:-120}" "${3:-10000000}" "${4:-1}" "${5:-2000}" "${6:-paced}"
