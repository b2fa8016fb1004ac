def turn(items):
    n = len(items)
    total = 0
    for k in range(1000):
        i = 0
        while i < n:
            total += items[i]
            items[i] = k
            i += 1
    return total


print(turn([1] * 1000))
