a = [0, 0, 0]
a[0] = 1; a[-1] = 'c'; a[True] = [2]
print(a)
a[1][0] = 3
print(a)
for i in (3, -4):
    try:
        a[i] = 5
    except IndexError as e:
        print(e)
for o in ((1, 2), 'ab', b'ab', range(3), 5, None):
    try:
        o[0] = 1
    except TypeError as e:
        print(e)
try:
    a['0'] = 1
except TypeError as e:
    print(e)
print(a)
