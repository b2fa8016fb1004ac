def f(): pass
def g(): pass
print(f == 1, f != print, f is None)
print(f == g)
