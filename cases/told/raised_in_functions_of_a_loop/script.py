for n in range(3):
    def f(a):
        b = a
        return b // (1 - a)
    print(f(n))
