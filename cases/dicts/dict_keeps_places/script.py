d = {'a': 1, 2: 'b'}; d['a'] = 5; del d[2]; d[2] = 0; print(d)
d = {1: 'a', 2: 'b', 1: 'c'}
print(d)
