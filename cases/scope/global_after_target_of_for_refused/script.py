def f():
    for x in range(3):
        global x
