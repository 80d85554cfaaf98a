#!/usr/bin/env bash
# Writes src/bindings.rs from the headers, by bindgen 0.60.1 (Debian's package bindgen); with --check only compares the two.
cd "$(dirname "${BASH_SOURCE[0]}")" || exit 1

generate() {
    bindgen headers.h --use-core --ctypes-prefix core::ffi --size_t-is-usize --no-prepend-enum-name \
        --no-copy 'jdoc_path|jdoc_keypath|jdoc_items|jdoc_builder|jdoc_tape|jdoc_walk|jdoc_buffer' \
        --allowlist-function 'jdoc_.*' --allowlist-type 'jdoc_.*' --allowlist-var 'JDOC_.*' \
        --rustfmt-configuration-file "$PWD/../rustfmt.toml" -- -I../../c
}

if [ "$1" = --check ]; then
    diff <(generate) src/bindings.rs
else
    generate >src/bindings.rs
fi
