# 5,000,000 tuples would take more memory than there is
def swap(n):
    a, b, i = 0, 1, 0
    while i < n:
        a, b = b, a
        i += 1
    return a, b
print(swap(5000000))
