d = {}
for k in range(10000):
    d[k * 7919 % 10007] = k
    d['k' + str(k)] = k
print(len(d), d[7919], d['k9999'])
for k in range(0, 10000, 2):
    del d['k' + str(k)]
print(len(d), 'k2' in d, d['k3'])
