"""Calls by docs/LANGUAGE.md: built-ins, kinds, functions of the script, and the methods of texts, lists and dicts."""

import builtins
import functools
import re
import types

from messages import made
from operations import BuiltIn, DEEPEST, LONGEST, LONGEST_TUPLE, Module, Operations, Thing, is_kind, is_long

INTEGER = re.compile(r'[ \t-\r]*([+-]?[0-9]+(?:_[0-9]+)*)[ \t-\r]*')
BUILT_INS = ('print', 'range', 'str', 'repr', 'len', 'bool', 'abs', 'int', 'ord', 'chr', 'min', 'max', 'bytes', 'tuple',
             'list')
OF_MORE = ('print', 'range', 'min', 'max')
# how many arguments the methods take
METHODS = {(str, 'startswith'): (1,), (str, 'endswith'): (1,), (str, 'join'): (1,), (str, 'encode'): (0,),
           (list, 'append'): (1,), (list, 'pop'): (0, 1), (dict, 'get'): (1, 2), (dict, 'pop'): (1,)}


class Calls(Operations):
    depth = 0

    def call(self, callee, /, *given, **by_name):
        self.spend()
        if isinstance(callee, functools.partial):
            return callee(*given, **by_name)
        if not isinstance(callee, (types.FunctionType, BuiltIn)) and not is_kind(callee):
            raise made(TypeError, 'not callable')
        if by_name or is_kind(callee) and len(given) > 1:
            self.differs_by(TypeError, 'wrong arguments')
        if isinstance(callee, BuiltIn):
            if len(given) < 2 if callee.name in ('min', 'max') else len(given) != 1 and callee.name not in OF_MORE:
                self.differs_by(TypeError, 'wrong arguments')
            return callee.function(*given)
        return made(callee, *given) if is_kind(callee) else self.call_function(callee, given)

    def call_function(self, function, given):
        if len(given) == function.__code__.co_argcount and self.depth >= DEEPEST:
            self.differs_by(RecursionError, 'too deep')
        self.depth += 1
        try:
            return function(*given)
        finally:
            self.depth -= 1

    def to_raise(self, value):
        if isinstance(value, BaseException):
            return value
        return made(value) if is_kind(value) else made(TypeError, 'wrong type')

    def method(self, value, name):
        """What is called by `value.name(..)`."""
        if (type(value), name) in METHODS:
            return functools.partial(self.call_method, value, name)
        subject = value.name if isinstance(value, Module) else type(value).__name__
        function = getattr(self, f'{subject}_{name}', None) if isinstance(value, Thing) else None
        return functools.partial(function, value) if function else self.attribute(value, name)

    def attribute(self, value, name):
        if isinstance(value, Thing) or hasattr(value, name):
            self.differs()
        raise made(AttributeError, f'no attribute {name}')

    def call_method(self, value, name, /, *given, **by_name):
        if by_name or len(given) not in METHODS[type(value), name]:
            self.differs_by(TypeError, 'wrong arguments')
        if isinstance(value, dict):
            if name == 'pop' and not value:
                self.differs()
            if name == 'pop':
                self.note_loss(value)
            self.key(given[0])
        if name in ('startswith', 'endswith') and isinstance(given[0], tuple):
            self.differs_by(TypeError, 'wrong type')
        if name == 'join' and isinstance(given[0], (dict, range, bytes)):
            self.differs_by(TypeError, 'wrong type')
        if name == 'append':
            self.need_length(len(value) + 1)
        result = getattr(value, name)(*given)
        self.need_length(len(result) if name in ('join', 'encode') else 0)
        return result

    # -- built-ins

    def built_ins(self):
        functions = {name: getattr(self, f'to_{name}', getattr(builtins, name)) for name in BUILT_INS}
        functions |= {'str': self.text, 'repr': self.shown}
        return {name: BuiltIn(name=name, function=function) for name, function in functions.items()}

    def written(self):
        """What the interpreter has printed that runs."""
        return self.printed

    def to_print(self, *values):
        line = ' '.join([self.text(it) for it in values]) + '\n'
        self.spend(len(line) // 4)
        self.written().append(line)

    def to_min(self, *values):
        return functools.reduce(lambda least, it: it if self.less(it, least) else least, values)

    def to_max(self, *values):
        return functools.reduce(lambda greatest, it: it if self.less(greatest, it) else greatest, values)

    def to_abs(self, value):
        return self.bounded(abs(value))

    def to_int(self, value):
        if isinstance(value, bytes):
            self.differs_by(TypeError, 'wrong type')
        if isinstance(value, str) and not value.isascii():
            self.differs()
            found = INTEGER.fullmatch(value)
            value = found[1] if found else ''
        return self.bounded(int(value))

    def to_ord(self, value):
        if isinstance(value, bytes):
            self.differs_by(TypeError, 'wrong type')
        return ord(value)

    def to_chr(self, value):
        if isinstance(value, int) and 0xd800 <= value <= 0xdfff:
            self.differs_by(ValueError, 'wrong value')
        return chr(value)

    def to_bytes(self, value):
        if not isinstance(value, (range, tuple, list, str)):
            self.differs_by(TypeError, 'wrong type')
        if isinstance(value, (tuple, list)) and not all(isinstance(it, int) for it in value):
            self.differs_by(ValueError, 'wrong value')
        if isinstance(value, range) and is_long(value, 256):
            self.differs_by(ValueError, 'wrong value', is_costly=True)
        return bytes(value)

    def to_tuple(self, value):
        if is_long(value, LONGEST_TUPLE) and not isinstance(value, tuple):
            self.differs_by(OverflowError, 'too long', is_costly=True)
        return tuple(value)

    def to_list(self, value):
        if is_long(value, LONGEST):
            self.differs_by(OverflowError, 'too long', is_costly=True)
        return list(value)
