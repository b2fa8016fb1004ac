print(str(5), str('a'), str(None), str(True), str(print) == repr(print))
print(repr('a'), repr("it's"), repr('"it\'s"'), repr(-7))
print(repr('\t\\'), str(range(2)))
print(range, str, repr)
try:
    str(1, 2)
except TypeError as e:
    print(e)
repr()
