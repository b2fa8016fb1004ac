items = []
for k in range(1000000):
    items.append(k)
print(len(items), items[999999])
