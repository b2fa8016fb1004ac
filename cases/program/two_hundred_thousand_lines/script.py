for k in range(200000):
    print('line', k)
