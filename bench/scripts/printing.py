n = 0
while n < 300000:
    print('line', n, n % 2 == 0)
    n += 1
