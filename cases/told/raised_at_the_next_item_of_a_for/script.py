print('on')
for a, b in [(1, 2), (3,)]:
    print(a)
    print(b)
