t = ([1], 2)
try:
    t[0] += [3]
except TypeError as e:
    print(e)
print(t)
