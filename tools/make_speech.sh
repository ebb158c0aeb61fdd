#!/bin/sh
# Ten minutes of synthetic speech on standard output, 8,000 Hz, mono, 16-bit little-endian PCM: espeak-ng reads the licence, its parts in
# four voices by turns, over again until there is enough. Needs espeak-ng and sox.
set -e
cd "$(dirname "$0")/.."
parts=$(mktemp -d)
trap 'rm -rf "$parts"' EXIT
split -l 20 LICENSE "$parts/part."
read_licence() {
    set -- en-gb+m1 en-gb+f2 en-us+m3 en-us+f4
    for part in "$parts"/part.*; do
        espeak-ng -v "$1" -f "$part" --stdout | sox -t wav - -D -t raw -e signed -b 16 -r 8000 -c 1 -
        set -- "$2" "$3" "$4" "$1"
    done
}
read_licence > "$parts/licence"
cat "$parts/licence" "$parts/licence" | head -c 9600000
