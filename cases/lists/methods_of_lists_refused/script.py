a = [1]
def tell(n):
    try:
        if n == 0: a.append()
        if n == 1: a.append(1, 2)
        if n == 2: a.pop(0, 1)
        if n == 3: a.append(x=1)
    except TypeError as e:
        print(n, e)
for n in range(4): tell(n)
try:
    a.get(0)
except AttributeError as e:
    print(e)
try:
    a.insert(0, 1)
except AttributeError as e:
    print(e)
print(a)
