def f():
    try:
        pass
    finally:
        try:
            return 1
        except ValueError:
            pass
