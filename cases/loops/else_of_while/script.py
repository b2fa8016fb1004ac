n = 0
while n < 3:
    n += 1
    if n == 2: continue
    print(n)
else:
    print('else', n)
while True:
    break
else:
    print('not here')
