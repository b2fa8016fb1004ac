def f(x):
    try:
        if x: y = 1
        return y
    except NameError as e:
        return e
print(f(True), f(False))
