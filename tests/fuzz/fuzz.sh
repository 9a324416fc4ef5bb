#!/usr/bin/env bash
# Runs kr on mutated tables and scripts: tests/fuzz/fuzz.sh [RUNS [SEED]], 100,000 runs with the seed 1 by default, three at a
# time. Build first, by `./build`. What is mutated, and what each run has to do: fuzz.py.
exec python3 "$(dirname "${BASH_SOURCE[0]}")/fuzz.py" "${1:-100000}" "${2:-1}" "${KR:-}"
