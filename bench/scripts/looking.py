ages = {'ann': 31, 'bob': 42, 'cid': 53, 'dan': 64}
total = 0
for k in range(500000):
    total += ages['ann'] + ages['dan']
print(total)
