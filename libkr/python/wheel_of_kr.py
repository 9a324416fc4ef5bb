"""Builds the wheel of the module kr for pip, as PEP 517 asks, from Python alone. libkr.so of ../out is put beside the module, where
`./build` has built it."""
import base64
import hashlib
import os
import re
import sysconfig
import zipfile

with open('pyproject.toml', encoding='utf-8') as file:
    VERSION = re.search('^version = "(.*)"$', file.read(), re.M)[1]
NAME = f'kr-{VERSION}'
METADATA = f"""Metadata-Version: 2.1
Name: kr
Version: {VERSION}
Summary: Checks key-range locking protocols, and steps sessions under them: libkr by ctypes
License: MIT OR Apache-2.0
Requires-Python: >=3.8
"""


def files():
    """Each file of the wheel but its record, as a name and bytes."""
    for source, name in (('kr/__init__.py', 'kr/__init__.py'), ('kr/py.typed', 'kr/py.typed'), ('../out/libkr.so', 'kr/libkr.so')):
        if os.path.exists(source):
            with open(source, 'rb') as file:
                yield name, file.read()
    yield f'{NAME}.dist-info/METADATA', METADATA.encode()
    yield f'{NAME}.dist-info/WHEEL', f'Wheel-Version: 1.0\nGenerator: kr\nRoot-Is-Purelib: false\nTag: {tag()}\n'.encode()


def tag():
    if not os.path.exists('../out/libkr.so'):
        return 'py3-none-any'
    return 'py3-none-' + sysconfig.get_platform().replace('-', '_').replace('.', '_')


def get_requires_for_build_wheel(config_settings=None):
    return []


def build_wheel(wheel_directory, config_settings=None, metadata_directory=None):
    wheel, record = f'{NAME}-{tag()}.whl', []
    with zipfile.ZipFile(os.path.join(wheel_directory, wheel), 'w', zipfile.ZIP_DEFLATED) as out:
        for name, data in files():
            out.writestr(name, data)
            digest = base64.urlsafe_b64encode(hashlib.sha256(data).digest()).rstrip(b'=').decode()
            record.append(f'{name},sha256={digest},{len(data)}\n')
        own = f'{NAME}.dist-info/RECORD'
        out.writestr(own, ''.join(record) + f'{own},,\n')
    return wheel
