# -*- coding: latin-1 -*-
def f():
    pass
try:
    9223372036854775807 + 1
except Exception as e:
    print(repr(e))
try:
    1 << 63
except Exception as e:
    print(repr(e))
try:
    2 ** -1
except Exception as e:
    print(repr(e))
try:
    0 ** -1
except Exception as e:
    print(repr(e))
try:
    'a%s' % 1
except Exception as e:
    print(repr(e))
try:
    ValueError | TypeError
except Exception as e:
    print(repr(e))
try:
    str()
except Exception as e:
    print(repr(e))
try:
    int()
except Exception as e:
    print(repr(e))
try:
    bool()
except Exception as e:
    print(repr(e))
try:
    abs(-9223372036854775807 - 1)
except Exception as e:
    print(repr(e))
try:
    int('9223372036854775808')
except Exception as e:
    print(repr(e))
try:
    int('\u0663')
except Exception as e:
    print(repr(e))
try:
    int('\x1c7')
except Exception as e:
    print(repr(e))
try:
    int('9' * 5000)
except Exception as e:
    print(repr(e))
try:
    int('12', 8)
except Exception as e:
    print(repr(e))
try:
    chr(55296)
except Exception as e:
    print(repr(e))
try:
    chr(1 << 31)
except Exception as e:
    print(repr(e))
try:
    min('ba')
except Exception as e:
    print(repr(e))
try:
    max('ba')
except Exception as e:
    print(repr(e))
try:
    print('a', end='')
except Exception as e:
    print(repr(e))
try:
    str(object='a')
except Exception as e:
    print(repr(e))
try:
    ValueError(1, 2)
except Exception as e:
    print(repr(e))
try:
    f == f
except Exception as e:
    print(repr(e))
try:
    __debug__
except Exception as e:
    print(repr(e))
try:
    __doc__
except Exception as e:
    print(repr(e))
try:
    sum
except Exception as e:
    print(repr(e))
__debug__ = 'é'
print(__debug__, print, range, f)
print(repr('\u200b') == "'\u200b'", str(SyntaxError()) == '')
try:
    (1, 2) < (1, 3)
except Exception as e:
    print(repr(e))
try:
    tuple(range(65536))
except Exception as e:
    print(repr(e))
deep = None
for k in range(202):
    deep = ValueError(deep)
try:
    print('a', deep)
except RecursionError as e:
    print(e)
def below(n):
    return n if n == 1 else below(n - 1)
print(below(200))
below(201)
