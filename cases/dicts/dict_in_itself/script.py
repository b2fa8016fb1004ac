d = {}; d[1] = d; d['l'] = [d]
print(d)
print([d])
