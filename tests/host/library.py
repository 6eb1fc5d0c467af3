"""The static library as a shared object, for the tests: each call on lent buffers and numbers. A guard stands before and after each buffer. And what its header says."""
import ctypes
import itertools
import os
import re

I64, SIZE = ctypes.c_int64, ctypes.c_size_t
GUARD = b'\xa5' * 64


class Buffer:
    """Bytes lent to a call, with guards around them. One after the other they begin at each remainder by 8, since no alignment is asked. Where only the first `lent` bytes are lent, the
    others are a guard too, so that a call that takes no heed of its room is found out and does no harm."""
    made = itertools.count()

    def __init__(self, data, lent=None):
        self.n = len(data) if lent is None else lent
        self.front = GUARD + GUARD[:next(Buffer.made) % 8]
        self.behind = data[self.n:] + GUARD
        self.raw = bytearray(self.front + data[:self.n] + self.behind)
        self.at = ctypes.c_void_p(ctypes.addressof(ctypes.c_uint8.from_buffer(self.raw)) + len(self.front))

    def get(self):
        whole = bytes(self.raw)
        end = len(self.front) + self.n
        assert whole[:len(self.front)] == self.front and whole[end:] == self.behind, 'a call wrote outside its slice'
        return whole[len(self.front):end]


class Header:
    """The constants of include/dombrelat.h, and the calls that it declares."""

    def __init__(self):
        with open(os.path.join(os.path.dirname(os.path.abspath(__file__)), '../../include/dombrelat.h'), encoding='utf-8') as file:
            text = file.read()
        self.constants = {name: int(value) for name, value in re.findall(r'^#define DOMBRELAT_(\w+) \(?(-?\d+)\b', text, re.MULTILINE)}
        self.macros = dict(re.findall(r'^#define DOMBRELAT_(\w+)\(bytes\) (.+)$', text, re.MULTILINE))      # of a length
        self.calls = re.findall(r'^int64_t dombrelat_(\w+)\(', text, re.MULTILINE)

    def of_length(self, name, length):
        """What a macro of a length gives: in C its division drops the remainder, and its names are the header's."""
        return eval(self.macros[name].replace('/', '//').replace('DOMBRELAT_', ''), {**self.constants, 'bytes': length})


class Library:
    def __init__(self, path):
        self.so = ctypes.CDLL(os.path.abspath(path))

    def has(self, name):
        return hasattr(self.so, 'dombrelat_' + name)

    def call(self, name, *arguments):
        """The result of dombrelat_NAME; a Buffer is passed as a pointer and its length, a number as int64_t."""
        f = getattr(self.so, 'dombrelat_' + name)
        f.restype = I64
        given = []
        for a in arguments:
            given += [a.at, SIZE(a.n)] if isinstance(a, Buffer) else [I64(a)]
        return f(*given)
