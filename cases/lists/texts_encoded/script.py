print(len('\u00e9'), '\u00e9'.encode(), ''.encode(), 'a\u20ac\U0001f600'.encode(), len('abc'.encode()))
try:
    'a'.encode('utf-8')
except TypeError as e:
    print(e)
try:
    b'a'.encode()
except AttributeError as e:
    print(e)
s = '\u00e9' * 524288
print(len(s.encode()))
try:
    (s + 'a').encode()
except OverflowError as e:
    print(e)
