def first_over(limit):
    n = 0
    while True:
        n += 1
        while n > limit: return n
print(first_over(3), first_over(0))
