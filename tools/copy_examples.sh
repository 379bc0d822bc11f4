#!/usr/bin/env bash
# Copies examples/ into the crate that runs them, crates/worked_examples, and lists the runs for it: each NAME.toml that has
# its report NAME.out beside it or that is refused, and each NAME.words, which is a run of NAME.toml with words. With --check
# it copies nothing and ends with status 1 where the two differ.
set -u
cd "$(dirname "${BASH_SOURCE[0]}")/.." || exit 1
crate=crates/worked_examples
runs() {
    (
        cd examples || exit 1
        for file in *.toml refused/*.toml; do
            name=${file%.toml}
            case $name in refused/*) echo "$name" ;; *) [ -f "$name.out" ] && echo "$name" ;; esac
        done
        ls -- *.words
    ) | LC_ALL=C sort
}
if [ "${1:-}" = --check ]; then
    diff -r examples $crate/data >&2 && diff <(runs) $crate/args >&2 && exit 0
    echo "copy_examples: examples/ and what $crate runs differ: run tools/copy_examples.sh" >&2
    exit 1
fi
rm -rf $crate/data && cp -r examples $crate/data && runs >$crate/args
