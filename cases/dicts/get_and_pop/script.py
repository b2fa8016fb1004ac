d = {'a': 1, 2: 'b'}
print(d.get('a'), d.get(2, 5), d.get('x'), d.get('x', [1]), d.get(3, None))
print(d.pop('a'), d, d.pop(2), d)
try:
    d.pop('a')
except KeyError as e:
    print(e, repr(e))
