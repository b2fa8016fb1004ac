a = [0]
try:
    while True: a += a
except OverflowError as e:
    print(len(a), e)
try:
    a.append(1)
except OverflowError as e:
    print(len(a), e)
for n in (0, 1, 2, 3):
    try:
        if n == 0: a + [1]
        if n == 1: a * 2
        if n == 2: list(range(1048577))
        if n == 3: a += (1,)
    except OverflowError as e:
        print(n, len(a), e)
print(len(list(range(1048576))), len(a + []))
