x = 12345
sum = 0
n = 0
while n < 1000000:
    x = (x ^ x << 5 & 1048575) & 1048575
    x = x ^ x >> 3
    sum = sum + (x & 255) | 1
    n += 1
print(x, sum)
