big = 9223372036854775807
for k in range(big - 2, big, 5): print(k)
for k in range(-big, -big - 1, -3): print(k)
n = 0
for k in range(-big - 1, big, big): n += 1
print(n, k)
