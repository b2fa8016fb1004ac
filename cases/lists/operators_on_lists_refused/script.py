a = [1]
def tell(n):
    try:
        if n == 0: a + (1,)
        if n == 1: (1,) + a
        if n == 2: a + 1
        if n == 3: a * a
        if n == 4: a - a
        if n == 5: -a
        if n == 6: a < [2]
        if n == 7: a * 'a'
        if n == 8: 'a' in 'b' + a
        if n == 9: a()
    except TypeError as e:
        print(n, e)
for n in range(10): tell(n)
