d = {'a': 1, 2: 'b', 'c': 3, 4: 'd'}
del d['a']; del d[4]
print(d, len(d))
try:
    del d['a']
except KeyError as e:
    print(e)
d['a'] = 9
print(d)
