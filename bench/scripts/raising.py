def check(n):
    if n % 2 == 0:
        raise ValueError(n)
    return n // 0
caught = 0
for n in range(200000):
    try:
        check(n)
    except ValueError as e:
        caught += 1
    except ZeroDivisionError:
        caught += 2
print(caught)
