d = {'a': 1}
def tell(n):
    try:
        if n == 0: d.get()
        if n == 1: d.get(1, 2, 3)
        if n == 2: d.pop()
        if n == 3: d.pop('a', 1)
        if n == 4: d.get(key=1)
    except TypeError as e:
        print(n, e)
for n in range(5): tell(n)
try:
    d.keys()
except AttributeError as e:
    print(e)
try:
    d.append(1)
except AttributeError as e:
    print(e)
print(d)
