a = [1]
def tell(n):
    try:
        if n == 0: a[1] += 1
        if n == 1: a['x'] += 1
        if n == 2: {}['x'] += 1
        if n == 3: (1, 2)[0] += 1
        if n == 4: a[0] += 'x'
        if n == 5: a[0] //= 0
    except IndexError as e:
        print(n, 'IndexError', e)
    except TypeError as e:
        print(n, 'TypeError', e)
    except KeyError as e:
        print(n, 'KeyError', e)
    except ZeroDivisionError as e:
        print(n, 'ZeroDivisionError')
for n in range(6): tell(n)
print(a)
