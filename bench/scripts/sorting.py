def sort(items):
    n = len(items)
    for i in range(n):
        for j in range(n - 1 - i):
            if items[j] > items[j + 1]:
                items[j], items[j + 1] = items[j + 1], items[j]


x = 12345
items = []
for k in range(1000):
    x = (x * 1103515245 + 12345) % 2147483648
    items.append(x)
sort(items)
print(items[0], items[500], items[999])
