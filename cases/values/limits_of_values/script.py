# The longest list, the deepest tuple, and the longest tuple.
a = [0]
try:
    while True: a += a
except OverflowError as e:
    print(len(a), e)
t = (); n = 1
try:
    while True: t = (t,); n += 1
except OverflowError as e:
    print(n, e)
print(len((0,) * 65535))
print(len((0,) * 65536))
