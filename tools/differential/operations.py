"""Operations on values by docs/LANGUAGE.md ("Values", "Evaluation"): those of CPython, but where it says otherwise.

Where a script means something else than in Python, `differs` notes it: from there on the script can't be compared with
CPython as it is. What CPython raises has the message that messages.py finds.
"""

import operator
import types

from messages import arguments_of, made

LEAST, GREATEST = -2**63, 2**63 - 1
LONGEST = 1_048_576
LONGEST_TUPLE = 65_535
DEEPEST = 200
LONGEST_RUN_OF_RANGE = 2_000_000
SEQUENCES = (str, bytes, tuple, list)
OPERATIONS = {'+': operator.add, '-': operator.sub, '*': operator.mul, '//': operator.floordiv, '%': operator.mod,
              '**': operator.pow, '<<': operator.lshift, '>>': operator.rshift, '&': operator.and_, '|': operator.or_,
              '^': operator.xor}
SIGNS = {'+': operator.pos, '-': operator.neg, '~': operator.invert}


class GivenUp(BaseException):
    """The script is more than the model takes on, and is left out."""


class Thing(types.SimpleNamespace):
    """A value of a script that CPython doesn't have, or has otherwise."""
    __eq__ = object.__eq__


SHAPES = {'BuiltIn': '<built-in {0.name}>', 'Module': "<module '{0.path}'>", 'Interpreter': 'Interpreter({0.id})',
          'Queue': 'Queue({0.id})', 'Execution': '<exec of Interpreter({0.interpreter.id})>'}
BuiltIn, Module, Interpreter, Queue, Execution = [
    type(name, (Thing,), {'shape': shape}) for name, shape in SHAPES.items()]


def is_kind(value):
    return isinstance(value, type) and issubclass(value, BaseException)


def is_long(value, most):
    return isinstance(value, (range, *SEQUENCES)) and len(value[:most + 1]) > most


def quoted(text):
    """The text of a text, as a script shows it: all past ASCII stands as it is."""
    quote = '"' if "'" in text and '"' not in text else "'"
    escaped = {chr(it): f'\\x{it:02x}' for it in (*range(32), 127)}
    escaped |= {quote: '\\' + quote, '\\': '\\\\', '\n': '\\n', '\r': '\\r', '\t': '\\t'}
    return quote + ''.join(escaped.get(it, it) for it in text) + quote


class Operations:
    """A run of a script: what it may still spend, after which lines it met a rule by which it differs from CPython, and
    which dicts it goes over in loops."""

    def __init__(self, budget):
        self.budget, self.printed, self.differences, self.gone_over = budget, [], [], []
        self.is_costly = False

    def spend(self, amount=1):
        self.budget -= amount
        if self.budget < 0:
            self.give_up()

    def give_up(self):
        self.budget = -1
        raise GivenUp

    def differs(self, is_costly=False):
        """Notes that CPython may do something else before the next line is printed; or that it would take long."""
        self.differences.append(len(self.printed))
        self.is_costly = self.is_costly or is_costly

    def differs_by(self, kind, *arguments, is_costly=False):
        self.differs(is_costly)
        raise made(kind, *arguments)

    def shown(self, value, within=()):
        """The `repr` of a value that stands within these others."""
        self.spend()
        if isinstance(value, (tuple, list, dict, BaseException)):
            return self.shown_whole(value, within)
        if is_kind(value):
            return f"<class '{value.__name__}'>"
        if isinstance(value, (type, types.BuiltinFunctionType)):
            return f'<built-in {value.__name__}>'
        if isinstance(value, types.FunctionType):
            return f'<function {value.__name__}>'
        if isinstance(value, Thing):
            return value.shape.format(value)
        return quoted(value) if isinstance(value, str) else repr(value)

    def shown_whole(self, value, within):
        if any(value is it for it in within) and not isinstance(value, BaseException):
            if not isinstance(value, tuple):
                return '[...]' if isinstance(value, list) else '{...}'
            self.differs()
        if len(within) >= DEEPEST:
            self.differs_by(RecursionError, 'too deep')
        inside = (*within, value)
        if isinstance(value, dict):
            parts = [f'{self.shown(key, inside)}: {self.shown(it, inside)}' for key, it in value.items()]
            return '{' + ', '.join(parts) + '}'
        items = arguments_of(value) if isinstance(value, BaseException) else value
        parts = ', '.join([self.shown(it, inside) for it in items])
        if isinstance(value, BaseException):
            return f'{type(value).__name__}({parts})'
        if isinstance(value, list):
            return f'[{parts}]'
        return f'({parts},)' if len(value) == 1 else f'({parts})'

    def text(self, value, within=()):
        """The `str` of a value that stands within these exceptions."""
        if isinstance(value, str):
            return value
        if not isinstance(value, BaseException):
            return self.shown(value, within)
        if len(within) >= DEEPEST:
            self.differs_by(RecursionError, 'too deep')
        arguments = arguments_of(value)
        if not arguments:
            return ''
        return (self.shown if isinstance(value, KeyError) else self.text)(arguments[0], (*within, value))

    def told(self, error):
        """How an exception is told that leaves a run."""
        try:
            message = self.text(error)
        except RecursionError:
            message = '<exception str() failed>'
        return type(error).__name__ + (message and f': {message}')

    def bounded(self, value, most=LONGEST):
        """The value, where it is no integer out of range."""
        if isinstance(value, int) and not LEAST <= value <= GREATEST:
            self.differs_by(OverflowError, 'integer out of range')
        return value

    def need_length(self, length, sequence=None):
        if length > (LONGEST_TUPLE if isinstance(sequence, tuple) else LONGEST):
            self.differs_by(OverflowError, 'too long', is_costly=True)
        self.spend(length // 1000)

    def unary(self, sign, value):
        return self.bounded(SIGNS[sign](value))

    def binary(self, sign, left, right):
        self.spend()
        if not isinstance(left, int) or not isinstance(right, int):
            return self.of_others(sign, left, right)
        if sign == '**' and right < 0:
            self.differs_by(TypeError, 'wrong type')
        if right > 64 and (sign == '**' and left not in (-1, 0, 1) or sign == '<<' and left):
            self.differs_by(OverflowError, 'integer out of range', is_costly=True)
        return 0 if sign == '<<' and left == 0 <= right else self.bounded(OPERATIONS[sign](left, right))

    def of_others(self, sign, left, right):
        if sign == '+' and isinstance(left, SEQUENCES) and type(left) is type(right):
            self.need_length(len(left) + len(right), left)
        sequence, times = (right, left) if isinstance(left, int) else (left, right)
        if sign == '*' and isinstance(sequence, SEQUENCES) and isinstance(times, int):
            self.need_length(len(sequence) * max(times, 0), sequence)
            return sequence * (times if sequence else 0)
        refused = {'|': (dict, type, BuiltIn), '%': (str, bytes)}.get(sign, ())
        if isinstance(left, refused) or sign == '|' and isinstance(right, refused):
            self.differs_by(TypeError, 'wrong type')
        return OPERATIONS[sign](left, right)

    def augmented(self, sign, left, right):
        """What an augmented assignment makes of the value that was bound."""
        if isinstance(left, list) and sign == '+':
            added = list(self.turns(right))
            self.need_length(len(left) + len(added))
            left += added
            return left
        if isinstance(left, list) and sign == '*':
            self.differs()
        return self.binary(sign, left, right)

    def compared(self, sign, left, right):
        self.spend()
        if sign in ('is', 'is not'):
            return (left is right) == (sign == 'is')
        if sign in ('==', '!='):
            return self.equal(left, right) == (sign == '==')
        if sign in ('in', 'not in'):
            return self.contains(right, left) == (sign == 'in')
        first, second = (left, right) if sign in ('<', '>=') else (right, left)
        return self.less(first, second) == (sign in ('<', '>'))

    def less(self, left, right):
        if type(left) is type(right) and isinstance(left, (tuple, list)):
            self.differs_by(TypeError, 'wrong type')
        return left < right

    def equal(self, left, right, depth=0):
        self.spend()
        if type(left) is not type(right):
            return isinstance(left, int) and isinstance(right, int) and left == right
        if isinstance(left, types.FunctionType):
            self.differs_by(TypeError, 'wrong type')
        if isinstance(left, Execution):
            return left.interpreter is right.interpreter
        if not isinstance(left, (tuple, list, dict)):
            return left == right
        if left is right and not isinstance(left, tuple):
            return True
        if depth >= DEEPEST:
            self.differs_by(RecursionError, 'too deep')
        if len(left) != len(right):
            return False
        if isinstance(left, dict):
            return all(key in right and self.equal(it, right[key], depth + 1) for key, it in left.items())
        return all(self.equal(one, other, depth + 1) for one, other in zip(left, right))

    def contains(self, whole, part):
        if isinstance(whole, (tuple, list)):
            return any(self.equal(part, it) for it in whole)
        if isinstance(whole, range):
            return isinstance(part, int) and part in whole
        return (self.key(part) if isinstance(whole, dict) else part) in whole

    def key(self, value):
        if type(value) not in (int, str):
            if not isinstance(value, (list, dict)):
                self.differs()
            raise made(TypeError, 'wrong type')
        return value

    def display(self, *pairs):
        """The dict of keys and values by turns."""
        if len(pairs) >= 32 and not all(type(it) in (int, str) for it in pairs[::2]):
            self.differs()
        return {key: value for key, value in zip([self.key(it) for it in pairs[::2]], pairs[1::2])}

    def item(self, whole, at):
        self.spend()
        if isinstance(whole, BuiltIn):
            self.differs()
        return whole[self.key(at) if isinstance(whole, dict) else at]

    def set_item(self, whole, at, value):
        whole[self.key(at) if isinstance(whole, dict) else at] = value

    def delete_item(self, whole, at):
        self.note_loss(whole)
        del whole[self.key(at) if isinstance(whole, dict) else at]

    def note_loss(self, whole):
        """Notes that a loop may go over a dict that loses a key: CPython goes over it by other places."""
        if any(it is whole for it in self.gone_over):
            self.differs()

    def turns(self, value):
        """The items of a loop, turn by turn."""
        if is_long(value, LONGEST_RUN_OF_RANGE):
            self.give_up()
        return self.turns_of_dict(value) if isinstance(value, dict) else map(self.turn, value)

    def turn(self, value):
        self.spend(2)
        return value

    def turns_of_dict(self, value):
        length, place = len(value), 0
        self.gone_over.append(value)
        try:
            while len(value) == length > place:
                self.spend(2)
                yield list(value)[place]
                place += 1
            if len(value) != length:
                raise made(RuntimeError, 'dictionary changed size')
        finally:
            self.gone_over.pop()
