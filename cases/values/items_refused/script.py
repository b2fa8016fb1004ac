def g(x):
    print(x)
    return x
try:
    'abc'[3]
except IndexError as e:
    print(repr(e))
try:
    'abc'[-4]
except LookupError as e:
    print(repr(e))
try:
    ''[0]
except IndexError as e:
    print(repr(e))
try:
    '\u20ac'[1]
except IndexError as e:
    print(repr(e))
try:
    range(5)[5]
except IndexError as e:
    print(repr(e))
try:
    range(5)[-6]
except IndexError as e:
    print(repr(e))
try:
    range(0)[0]
except IndexError as e:
    print(repr(e))
try:
    'abc'[9223372036854775807]
except IndexError as e:
    print(repr(e))
try:
    'abc'[-9223372036854775807 - 1]
except IndexError as e:
    print(repr(e))
try:
    'abc'['a']
except TypeError as e:
    print(repr(e))
try:
    'abc'[None]
except TypeError as e:
    print(repr(e))
try:
    g(7)[g(0)]
except TypeError as e:
    print(repr(e))
try:
    None[0]
except TypeError as e:
    print(repr(e))
try:
    len[0]
except TypeError as e:
    print(repr(e))
try:
    ValueError[0]
except TypeError as e:
    print(repr(e))
try:
    ValueError('a')[0]
except TypeError as e:
    print(repr(e))
try:
    g[0]
except TypeError as e:
    print(repr(e))
try:
    x[g(1)]
except NameError as e:
    print(repr(e))
try:
    g('a')[x]
except NameError as e:
    print(repr(e))
try:
    1 in 'abc'
except TypeError as e:
    print(repr(e))
try:
    None not in 'abc'
except TypeError as e:
    print(repr(e))
try:
    1 in 1
except TypeError as e:
    print(repr(e))
try:
    'a' not in None
except TypeError as e:
    print(repr(e))
try:
    g(1) in g(print)
except TypeError as e:
    print(repr(e))
try:
    1 in ValueError('a')
except TypeError as e:
    print(repr(e))
print('abc'[3])
