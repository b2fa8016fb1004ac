print(', '.join(['a', 'b', 'c']), ''.join(('a',)), '-'.join('abc'), '+'.join([]), ''.join(['', '']))
for x in (['a', 1], [b'a'], 5, {'a': 1}, None):
    try:
        print('.'.join(x))
    except TypeError as e:
        print(e)
try:
    ''.join()
except TypeError as e:
    print(e)
