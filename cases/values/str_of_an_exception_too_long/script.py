s = 'a' * 1048576
e = ValueError(s)
print(str(e) == s)
try:
    print(KeyError(s))
except OverflowError as x:
    print(x)
raise KeyError(s)
