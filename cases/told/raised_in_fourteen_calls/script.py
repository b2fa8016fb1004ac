def down(n):
    if n == 0:
        raise ValueError('down')
    down(n - 1)

down(14)
