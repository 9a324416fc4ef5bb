"""kr in a Python program: checks tables, runs scripts, and steps sessions under a table, by libkr.

    >>> import kr
    >>> table = kr.Table('@kvl')
    >>> table.check().is_yes
    True
    >>> with table.open([(10, 1), (20, 2), (30, 3)]) as session:
    ...     session.step(1, 'fetch', 15)
    ...     session.step(2, 'insert', 17, 5)
    ['none']
    ['blocked', [1]]

libkr.so is looked for at KR_LIBRARY, beside this file, and where the system has it. Texts are str or bytes. A session is used by
one thread at a time: two threads that share one take a lock of their own.
"""
import ctypes
import ctypes.util
import json
import os
from ctypes import POINTER, Structure, byref, c_char_p, c_int, c_size_t, c_uint32, c_uint64, c_void_p
from typing import Any, Callable, Iterable, List, NamedTuple, Optional, Tuple, Union

__all__ = ['Closed', 'Error', 'Misuse', 'OutOfMemory', 'ScriptFault', 'Session', 'Table', 'TableFault', 'Told', 'version']

Text = Union[str, bytes]
OK, NO, TABLE, SCRIPT, NOMEM, CLOSED, ISOPEN, MISUSE = range(8)
OPERATIONS = {'fetch': 0, 'scan': 1, 'go': 2, 'insert': 3, 'delete': 4, 'update': 5, 'commit': 6, 'abort': 7, 'back': 8}
REPLIES = ('found', 'none', 'going', 'rows', 'done', 'duplicate', 'deleted', 'absent', 'updated', 'committed', 'aborted', 'undone',
           'blocked', 'refused')
REFUSALS = ('', 'Ended', 'Busy', 'NoScan', 'BadRange', 'Full', 'Memory', 'NoUpdate', 'RollingBack', 'NothingLeft')
ROWS, BLOCKED, REFUSED = 3, 12, 13
VALUED = frozenset((0, 2, 6, 8, 11))


class Told(NamedTuple):
    """An answer that is yes or no, with its report."""
    is_yes: bool
    text: str


class Error(Exception):
    """A code other than KR_OK and KR_NO. `code` is its number, and `line` the line of the fault, or empty."""

    def __init__(self, code: int, line: str = '') -> None:
        super().__init__(_lib.kr_errmsg(code).decode() + (': ' + line if line else ''))
        self.code, self.line = code, line


class TableFault(Error):
    """The bytes are no table."""


class ScriptFault(Error):
    """The bytes are no script."""


class Closed(Error):
    """The session isn't open."""


class Misuse(Error):
    """A number stands for nothing."""


class OutOfMemory(Error, MemoryError):
    """malloc or realloc refused."""


_errors = {TABLE: TableFault, SCRIPT: ScriptFault, NOMEM: OutOfMemory, CLOSED: Closed, MISUSE: Misuse}


class _Session(Structure):
    _fields_ = [('at', c_void_p), ('seal', c_uint64)]


class _Reply(Structure):
    _fields_ = [('kind', c_uint32), ('refusal', c_uint32), ('value', c_uint64), ('count', c_uint64)]


class _Pair(Structure):
    _fields_ = [('key', c_uint64), ('value', c_uint64)]


class _Lock(Structure):
    _fields_ = [('key', c_uint64), ('is_end', c_uint32), ('txn', c_uint32), ('mode', c_uint32), ('unused', c_uint32)]


def _load() -> ctypes.CDLL:
    beside = os.path.join(os.path.dirname(os.path.abspath(__file__)), 'libkr.so')
    name = os.environ.get('KR_LIBRARY') or (beside if os.path.exists(beside) else ctypes.util.find_library('kr'))
    if not name:
        raise ImportError('libkr.so is found neither at KR_LIBRARY, nor beside this module, nor by the system')
    lib = ctypes.CDLL(name)
    text, out, session = [c_char_p, c_size_t], [c_void_p, c_size_t, POINTER(c_size_t)], POINTER(_Session)
    arguments = {'check': text + out, 'decide': text + out, 'explain': text + out, 'explain_script': text + [c_size_t] + out,
                 'run': text * 2 + out, 'mode': text + [c_uint32] + out,
                 'open': [session] + text * 2 + out, 'close': [session],
                 'step': [session, c_uint32, c_uint32, c_uint64, c_uint64, POINTER(_Reply)],
                 'purge': [session, c_uint64, POINTER(c_uint32)]}
    arguments.update((name, [session] + out) for name in ('blockers', 'rows', 'index', 'ghosts', 'locks', 'unfinished', 'verdict'))
    for name, types in arguments.items():
        call = getattr(lib, 'kr_' + name)
        call.argtypes, call.restype = types, c_int
    lib.kr_version.restype = c_char_p
    lib.kr_errmsg.argtypes, lib.kr_errmsg.restype = [c_int], c_char_p
    return lib


_lib = _load()


def version() -> str:
    """The version of libkr."""
    return _lib.kr_version().decode()


def _bytes(text: Text) -> bytes:
    return text if isinstance(text, bytes) else text.encode()


def _tell(call: Callable[..., int], *given: Any) -> Told:
    """Calls with room for a text, and once more where the text was longer."""
    room, length = 4096, c_size_t()
    while True:
        text = ctypes.create_string_buffer(room)
        code = call(*given, text, room, byref(length))
        if length.value <= room:
            break
        room = length.value
    told = text.raw[:length.value].decode()
    if code not in (OK, NO):
        raise _errors.get(code, Error)(code, told)
    return Told(code == OK, told)


class Table:
    """A table of a locking protocol: the word of a bundled one, as '@kvl', or a text in TOML."""

    def __init__(self, text: Text) -> None:
        """Keeps the text; TableFault where it is no table."""
        self._text = _bytes(text)
        self._names: List[str] = []
        self.mode(1)

    def check(self) -> Told:
        """Whether all its cases hold, and the report that `kr check` prints."""
        return _tell(_lib.kr_check, self._text, len(self._text))

    def is_safe(self) -> bool:
        """Whether every run under it is serializable in commit order."""
        return _tell(_lib.kr_decide, self._text, len(self._text)).is_yes

    def explain(self) -> Told:
        """Whether it is safe, accepted or not, and the text that `kr explain` prints of a file named `table`."""
        return _tell(_lib.kr_explain, self._text, len(self._text))

    def script(self, cause: int) -> Optional[str]:
        """The script of the schedule that the explanation shows of a cause, from 1; None where it shows none."""
        found = _tell(_lib.kr_explain_script, self._text, len(self._text), cause)
        return found.text if found.is_yes else None

    def run(self, script: Text) -> Told:
        """Whether the run of a script is serializable in commit order, and the report that `kr run` prints."""
        given = _bytes(script)
        return _tell(_lib.kr_run, self._text, len(self._text), given, len(given))

    def mode(self, mode: int) -> str:
        """The name of a mode, from 1; empty where it has none of this number."""
        return _tell(_lib.kr_mode, self._text, len(self._text), mode).text

    def open(self, opening: Iterable[Tuple[int, int]] = ()) -> 'Session':
        """A session under it on an index of these pairs, whose keys rise."""
        return Session(self, opening)

    def _name(self, mode: int) -> str:
        while len(self._names) <= mode:
            self._names.append(self.mode(len(self._names)))
        return self._names[mode]


class Session:
    """Steps of transactions under a table, one at a time. Close it, or use it in a `with`."""

    def __init__(self, table: Union[Table, Text], opening: Iterable[Tuple[int, int]] = ()) -> None:
        """Opens it on an index of these pairs, whose keys rise; ScriptFault where they don't."""
        self._at, self._reply, self._length = _Session(), _Reply(), c_size_t()
        self.table = table if isinstance(table, Table) else Table(table)
        pairs = [[key, value] for key, value in opening]
        script = json.dumps({'format': 1, 'opening': pairs, 'steps': []}, separators=(',', ':')).encode()
        text = self.table._text
        _tell(_lib.kr_open, byref(self._at), text, len(text), script, len(script))
        self._session, self._into = byref(self._at), byref(self._reply)

    def close(self) -> None:
        """Closes it. Each later call raises Closed, and a second close does nothing."""
        _lib.kr_close(byref(self._at))

    def __enter__(self) -> 'Session':
        return self

    def __exit__(self, *_: Any) -> None:
        self.close()

    def __del__(self) -> None:
        if hasattr(self, '_at'):
            self.close()

    def step(self, txn: int, operation: str, first: int = 0, second: int = 0) -> List[Any]:
        """The reply to a step, as `kr run` reports it: ['found', 5], ['blocked', [1]] and so on.

        OutOfMemory where malloc refused: then only the last reply has changed."""
        reply = self._reply
        code = _lib.kr_step(self._session, txn, OPERATIONS[operation], first, second, self._into)
        if code:
            raise _errors.get(code, Error)(code)
        kind = reply.kind
        if kind in VALUED:
            return [REPLIES[kind], reply.value]
        if kind == BLOCKED:
            return ['blocked', self._list(_lib.kr_blockers, c_uint32, reply.count)]
        if kind == ROWS:
            return ['rows', [[it.key, it.value] for it in self._list(_lib.kr_rows, _Pair, reply.count)]]
        if kind == REFUSED:
            return ['refused', reply.refusal, REFUSALS[reply.refusal]]
        return [REPLIES[kind]]

    def purge(self, key: int) -> bool:
        """Purges a ghost, and says whether it did: never where deletes leave no ghosts. OutOfMemory as in `step`."""
        purged = c_uint32()
        code = _lib.kr_purge(self._session, key, byref(purged))
        if code:
            raise _errors.get(code, Error)(code)
        return purged.value == 1

    def index(self) -> List[List[int]]:
        """The pairs of the index, keys rising."""
        return [[it.key, it.value] for it in self._list(_lib.kr_index, _Pair, 64)]

    def ghosts(self) -> List[int]:
        """The ghosts, rising: deleted keys that aren't purged yet."""
        return self._list(_lib.kr_ghosts, c_uint64, 64)

    def locks(self) -> List[List[Any]]:
        """The locks that are held: name, transaction and mode, as `kr run` reports them."""
        return [['End' if it.is_end else it.key, it.txn, self.table._name(it.mode)] for it in self._list(_lib.kr_locks, _Lock, 64)]

    def unfinished(self) -> List[int]:
        """The active transactions, rising."""
        return self._list(_lib.kr_unfinished, c_uint32, 64)

    def verdict(self) -> List[Any]:
        """The verdict on what has committed so far, as `kr run` reports it: ['serial'], or ['not-serial', ..]."""
        return json.loads(_tell(_lib.kr_verdict, byref(self._at)).text)['verdict']

    def is_serializable(self) -> bool:
        """Whether what has committed so far is serializable in commit order."""
        return _tell(_lib.kr_verdict, byref(self._at)).is_yes

    def _list(self, call: Callable[..., int], item: Any, room: int) -> Any:
        while True:
            into = (item * room)()
            code = call(byref(self._at), into, room, byref(self._length))
            if code:
                raise _errors.get(code, Error)(code)
            if self._length.value <= room:
                return into[:self._length.value]
            room = self._length.value
