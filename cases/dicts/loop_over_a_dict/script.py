d = {'a': 1, 2: 'b', 'c': 3}
for k in d:
    print(k, d[k])
    d[k] = k
else:
    print(d)
for k in {}:
    print('never')
