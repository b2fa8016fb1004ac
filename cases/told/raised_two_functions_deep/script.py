def share(a, n):
    return a // n

def report(a):
    print('report')
    n = 0
    print(share(a, n))

report(7)
