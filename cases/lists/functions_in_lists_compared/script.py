def g(): pass
def h(): pass
print([1, g] == [2, h])
print([1, g] == [1, h])
