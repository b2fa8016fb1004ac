def count(n):
    i = 0
    s = 0
    while i < n:
        i += 1
        s = s + i * 3 % 7
    return s


print(count(2000000))
