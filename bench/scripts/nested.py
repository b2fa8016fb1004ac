total = 0
for a in range(1000):
    for b in range(1000):
        if (a ^ b) % 3 == 0:
            total += b
print(total)
