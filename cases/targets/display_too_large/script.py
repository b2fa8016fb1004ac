# what would be too large as a tuple is not unpacked either
def levels(n):
    t = ()
    while n > 1:
        t = (t,)
        n -= 1
    return t
one_fewer = (0,) * 32766
half = (0,) * 32767
a, b = one_fewer, half
print(len(a), len(b))
try:
    a, b = half, half
    print('bound')
except OverflowError as e:
    print(e, len(a))
a, b = levels(199), 0
print(len(a), b)
try:
    b, c = 1, levels(200)
    print('bound')
except OverflowError as e:
    print(e, b)
