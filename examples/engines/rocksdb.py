#!/usr/bin/python3 -B
"""RocksDB's pessimistic transactions, driven from outside: a trace's steps on standard input, the same with its replies on
standard output. Debian's packages librocksdb-dev and g++; the first run compiles rocksdb.cc.

    ./parts.py 1 10 | ./rocksdb.py >rocksdb.trace
    ./parts.py 1 10 | ./rocksdb.py range >rocksdb-range.trace

The word is how it locks, as rocksdb.cc says: point, snapshot or range; point if none is given."""

import sys

import process

if __name__ == '__main__':
    process.main('rocksdb', '-lrocksdb', [*sys.argv[1:], 'point'][0])
