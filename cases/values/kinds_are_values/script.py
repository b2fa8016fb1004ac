k = ValueError
e = k('a', ) if k == ValueError else None
print(k, repr(k), str(k))
print(e, repr(e), repr(k()), str(k()) == '')
print(e == e, k('a') == k('a'), k == KeyError, k is None)
try:
    k(1, 2)
except TypeError as t:
    print(t)
