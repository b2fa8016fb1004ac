a = ['a', 'b', 'c']
print(a[0], a[2], a[-1], a[-3], a[True], [[1, 2], [3]][0][1])
for i in (3, -4):
    try:
        print(a[i])
    except IndexError as e:
        print(e)
for i in ('a', None, (1,), [0]):
    try:
        print(a[i])
    except TypeError as e:
        print(e)
