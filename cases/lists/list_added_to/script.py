a = [1]; b = a
a += [2]; a += (3, 4); a += 'ab'; a += b'c'; a += range(2); a += {7: 8, 'k': 9}; a += a
print(a, b is None, a == b, len(b))
try:
    a += 5
except TypeError as e:
    print(e)
try:
    a += None
except TypeError as e:
    print(e)
t = (1,)
try:
    t += [2]
except TypeError as e:
    print(e)
t += (2,)
print(t, len(a))
