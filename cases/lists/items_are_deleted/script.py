a = [0, 1, 2, 3, 4]
del a[0]; del a[-1]; del a[True]
print(a)
for i in (2, -3):
    try:
        del a[i]
    except IndexError as e:
        print(e)
for o in ((1, 2), 'ab', range(3), None):
    try:
        del o[0]
    except TypeError as e:
        print(e)
del (a[0])
print(a)
