a = [1, 2, 3, 4]
for x in a:
    print(x, a.pop())
else:
    print('else', a)
