def told(a, b, c):
    try:
        return range(a, b, c)
    except ValueError as e:
        return e
    except TypeError as e:
        return e
print(told(1, 2, 0), told(1, 'x', 1), told(None, 2, 0))
try:
    range()
except TypeError as e:
    print(e)
try:
    range(1, 2, 3, 4)
except TypeError as e:
    print(e)
range(stop=3)
