#!/bin/sh
# Measures the proved SHA-256 beside a portable C loop and, where they are installed, openssl and sha256sum.
# Run it from anywhere in the repository; it needs rt and a C compiler.
set -eu

cd "$(dirname "$0")/.."
made=$(mktemp -d)
trap 'rm -rf "$made"' EXIT

(cd crates/digest_c && rt lib) >"$made/log" 2>&1 || { cat "$made/log"; exit 1; }
cp crates/digest_c/out/libdigest_c.a "$made/libdigest.a"
cc -O2 -Wall -Wextra -o "$made/sha256" bench/sha256.c "$made/libdigest.a"
"$made/sha256"

# openssl counts in thousands of bytes.
if command -v openssl >/dev/null; then
    openssl speed -evp sha256 -bytes 1048576 -seconds 2 2>/dev/null |
        awk 'END { printf "openssl:    %6.1f MiB/s\n", $NF * 1000 / 1048576 }'
fi

if command -v sha256sum >/dev/null; then
    head -c 268435456 /dev/zero >"$made/zeros"
    start=$(date +%s%N)
    sha256sum "$made/zeros" >/dev/null
    end=$(date +%s%N)
    awk "BEGIN { printf \"sha256sum:  %6.1f MiB/s (256 MiB of zeros from a file)\\n\", 256e9 / ($end - $start) }"
fi
