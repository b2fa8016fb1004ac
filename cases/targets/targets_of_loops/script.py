for a, b in [(1, 2), (3, 4)]:
    print(a, b)
for (a, b), c in [((1, 2), 3)]:
    print(a, b, c)
x = [0, 0]
for x[1] in range(3):
    print(x)
for k, in ['a', 'b']:
    print(k)
for [a, b] in ['xy']:
    print(a, b)
d = {}
for d['k'] in 'pq':
    print(d)
try:
    for a, b in [1]:
        print('never')
except TypeError as e:
    print(e)
