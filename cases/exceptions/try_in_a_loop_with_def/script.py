for k in range(2):
    try:
        def f(): return k
        if k: raise ValueError(f())
    except ValueError as e:
        def g(): return 'g'
        print(g(), e)
    else:
        def h(): return 'h'
        print(h(), f())
    finally:
        def i(): return 'i'
        print(i())
