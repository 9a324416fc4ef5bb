#!/usr/bin/python3 -B
"""Berkeley DB's transactions, driven from outside: a trace's steps on standard input, the same with its replies on standard
output. Debian's packages libdb5.3-dev and g++; the first run compiles berkeleydb.cc.

    ./parts.py 1 10 | ./berkeleydb.py >berkeleydb.trace"""

import process

if __name__ == '__main__':
    process.main('berkeleydb', '-ldb')
