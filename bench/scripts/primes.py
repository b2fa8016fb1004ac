count = 0
n = 2
while n < 30000:
    d = 2
    while d * d <= n:
        if n % d == 0:
            break
        d += 1
    if d * d > n:
        count += 1
    n += 1
print(count)
