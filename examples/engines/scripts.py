#!/usr/bin/env python3
"""Scripts of `kr run` and `kr explain --script` for an adapter, as a trace without replies: a part for each, without its purges.

    scripts.py SCRIPT.."""

import json
import pathlib
import sys


def main(*paths):
    for path in map(pathlib.Path, paths):
        script = json.loads(path.read_text())
        steps = [[it] for it in script['steps'] if isinstance(it[0], int)]
        for line in [{'format': 1, 'opening': script['opening'], 'tests': [path.stem]}, *steps]:
            print(json.dumps(line, separators=(',', ':')))


if __name__ == '__main__':
    main(*sys.argv[1:])
