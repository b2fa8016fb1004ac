x = 1
def g():
    global x
    x += 1
g()
g()
print(x)
