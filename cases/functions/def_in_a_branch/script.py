if 1 < 2:
    def f(): return 'first'
else:
    def f(): return 'second'
n = 0
while n < 2:
    def g(x): return x * 2
    n += 1
print(f(), g(n))
