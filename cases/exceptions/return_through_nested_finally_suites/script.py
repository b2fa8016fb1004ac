def f():
    for k in range(3):
        try:
            try:
                if k == 1:
                    return k
                print('turn', k)
            finally:
                print('inner', k)
        finally:
            print('outer', k)
    return 'end'
print(f())
