a = []
print(a.append(1), a.append([2]), a.append(a[1]), a)
print(a.pop(), a.pop(0), a, a.pop(-1), a)
try:
    a.pop()
except IndexError as e:
    print(e)
a.append(5)
for i in (1, -2):
    try:
        a.pop(i)
    except IndexError as e:
        print(e)
try:
    a.pop('a')
except TypeError as e:
    print(e)
print(a, a.pop(False), a)
