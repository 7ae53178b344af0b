#!/bin/sh
# Builds the naming program against the proved library, runs it on good and bad input, and compares the names with
# those that the system's sha256sum gives. Run from the top of the repository.
set -eu
out=$(mktemp -d)
trap 'rm -rf "$out"' EXIT
(cd crates/wire_c && rt lib) > "$out/log" 2>&1 || { cat "$out/log"; exit 1; }
cp crates/wire_c/out/libwire_c.a "$out/libwire.a"
"${CC:-cc}" -std=c11 -O2 -Wall -Wextra -Werror -Ic -o "$out/name" c/name.c "$out/libwire.a"

# The independent name of a body: SHA-256 of all bytes after the two of the length.
hashed() {
    printf '%s' "$1" | perl -ne 'print pack("H*", substr($_, 4))' | sha256sum | cut -c1-64
}

failed=0
expect() {
    if [ "$2" != "$3" ]; then
        echo "c: $1: expected $2, got $3"
        failed=1
    fi
}

count=0
while read -r kind digits; do
    case $kind in
        body) wanted=$(hashed "$digits") ;;
        malformed) wanted='refused 10' ;;
        *) continue ;;
    esac
    expect "$digits" "$wanted" "$("$out/name" "$digits")"
    count=$((count + 1))
done < c/messages.txt
expect 'no digits' 'not hexadecimal' "$("$out/name" 0x10)"
expect 'an odd number of digits' 'not hexadecimal' "$("$out/name" 001)"
[ "$failed" = 0 ] && echo "c: $count messages named or refused as they should be"
