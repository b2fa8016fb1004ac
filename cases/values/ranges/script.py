def truth(x):
    return 'true' if x else 'false'
print(range(3), range(1, 3), range(0, 6, 2), range(5, 0, -2))
print(range(0, 3, 2) == range(0, 4, 2), range(0) == range(2, 1), range(1) == range(0, 1, 7), range(2) == range(3))
for k in range(3): print(k)
for k in range(1, 8, 3): print(k)
for k in range(5, 0, -2): print(k)
for k in range(3, 3): print('not here')
print(truth(range(0)), truth(range(1)), truth(range(0, 5, -1)))
print(range(True, 3))
