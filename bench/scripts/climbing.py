def climb(n):
    ways = [1, 2]
    for k in range(n):
        ways.append((ways[-1] + ways[-2]) % 1000007)
    return ways[-1]


def smooth(items):
    for k in range(1, len(items)):
        items[k] = (items[k - 1] + items[k]) % (60 * 60)
    return items[-1]


print(climb(500000))
print(smooth([7] * 500000))
