"""Exceptions with the arguments that docs/LANGUAGE.md gives them: made so, or found for one that CPython raised."""

import re

WRONG_ARGUMENTS = (r'positional-only|takes \d+ positional|takes from \d+|missing \d+ required|expected at (most|least)'
                   r'|takes no |takes exactly|takes at (most|least)|unexpected keyword|expected \d+ arguments?, got'
                   r'|multiple values')
WRONG_TYPE = (r"unsupported operand|not supported between|bad operand type|can only concatenate|can't multiply"
              r"|is not iterable|not subscriptable|indices must be|(does not|doesn't) support item|argument of type"
              r"|non-iterable|must be str, not|integer is required|cannot be interpreted as an integer|unhashable"
              r"|must derive|catching classes|has no len|requires string|ord\(\) expected|a bytes-like|can't concat"
              r"|must be a string, a bytes|first arg must be|cannot convert|cannot use .* as a dict key|can only join"
              r"|string argument without|sequence item|expected a character|must be (int|an integer)")
WRONG_VALUE = (r'not enough values|too many values|invalid literal for int|negative shift|must not be zero|chr\(\) arg'
               r'|bytes? must be in range')
MESSAGES = [
    (TypeError, WRONG_ARGUMENTS, 'wrong arguments'),
    (TypeError, r'object is not callable', 'not callable'),
    (TypeError, WRONG_TYPE, 'wrong type'),
    (ValueError, WRONG_VALUE, 'wrong value'),
    (IndexError, r'out of range|pop from empty|pop index', 'index out of range'),
    (ZeroDivisionError, r'division|modulo', 'division by zero'),
    (RuntimeError, r'changed size during', 'dictionary changed size'),
    (RuntimeError, r'No active exception', 'no active exception'),
    (RecursionError, r'maximum recursion', 'too deep'),
    (OverflowError, r'Python int too large|too large to convert', 'integer out of range'),
    (UnboundLocalError, r"cannot access local variable '(\w+)'.*", r'local \1 is not bound'),
    (NameError, r"name '(\w+)' is not defined.*", r'name \1 is not defined'),
    (AttributeError, r".*has no attribute '(\w+)'.*", r'no attribute \1'),
]


def made(kind, *arguments):
    """An exception with just these arguments."""
    error = kind(*arguments)
    error.by_the_rules = arguments
    return error


def arguments_of(error):
    """The arguments of an exception; where CPython raised it, its message is that of the page."""
    if hasattr(error, 'by_the_rules'):
        return error.by_the_rules
    if len(error.args) == 1 and isinstance(error.args[0], str):
        for kind, pattern, message in MESSAGES:
            found = isinstance(error, kind) and re.search(pattern, error.args[0])
            if found:
                return (found.expand(message),)
    return error.args
