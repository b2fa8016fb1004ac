d = {1: 0, 2: 0}
try:
    for k in d:
        del d[k]
except RuntimeError as e:
    print(k, d, e)
d = {1: 0, 2: 0}
for k in d:
    if k == 1:
        del d[1]
        d[3] = 0
    print(k)
    if k == 3: break
