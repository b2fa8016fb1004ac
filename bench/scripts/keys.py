numbers = {}
words = {}
for k in range(200000):
    numbers[k * 7] = k
    words['k' + str(k)] = k
total = 0
for k in range(200000):
    total += numbers[k * 7]
    total += words['k' + str(k)]
    if k in numbers:
        total += 1
print(len(numbers), len(words), total)
