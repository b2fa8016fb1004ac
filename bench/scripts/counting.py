n = 0
while n < 5000000:
    n = n + 1
print(n)
