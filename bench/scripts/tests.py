n = 0
hits = 0
while n < 1000000:
    if 10 < n % 100 < 90 and not n % 3 == 0 or n % 7 == 0:
        hits += 1 if n % 2 else 2
    n += 1
print(hits)
