def f():
    try:
        return 'r'
    finally:
        for k in range(5):
            if k == 1: continue
            if k == 3: break
            print(k)
print(f())
