"""The program that is held: the one that KR in the environment names, or else the built one."""

import json
import os
import pathlib
import subprocess
import sys

TOP = pathlib.Path(__file__).resolve().parents[2]
TABLES = TOP / 'tables'


def built():
    path = os.environ.get('KR', TOP / 'crates/kr/out/kr')
    if not os.access(path, os.X_OK):
        sys.exit(f'{pathlib.Path(sys.argv[0]).name}: there is no program {path}')
    return path


def text_of(lines):
    """A trace."""
    return ''.join(f'{json.dumps(it, separators=(",", ":"))}\n' for it in lines).encode()


def said_of(word, trace):
    """What kr trace prints of a trace, with its status."""
    ran = subprocess.run([built(), 'trace', word, '/dev/stdin'], input=trace, capture_output=True)
    return ran.stdout.decode(), ran.stderr.decode(), ran.returncode


def reports_of(word, trace):
    """The line of each part."""
    out, err, status = said_of(word, trace)
    if err or status > 1:
        sys.exit(f'{err}status {status}')
    return [json.loads(line) for line in out.splitlines()]
