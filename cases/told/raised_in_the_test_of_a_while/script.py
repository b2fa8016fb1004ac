n = 2
while 6 // n > 0:
    print(n)
    n -= 1
