# bytes are made of ranges, shown, compared, joined, repeated and gone over
abc = bytes(range(97, 100))
print(abc, bytes(range(0)), bytes(range(255, -1, -85)), bytes)
print(bytes(range(34, 40)), bytes(range(34, 35)), bytes(range(39, 40)), bytes(range(9, 14)), bytes(range(92, 93)), bytes(range(126, 129)))
print(str(abc), repr(abc), len(abc), len(bytes(range(0))), not bytes(range(0)), bool(bytes(range(1))))
print(abc == bytes(range(97, 100)), abc == 'abc', abc != bytes(range(97, 99)), abc == None, 'abc' != abc)
print(abc < bytes(range(98, 100)), abc <= abc, bytes(range(97, 99)) < abc, abc > bytes(range(0)), bytes(range(255, 256)) >= abc)
print(min(abc, bytes(range(0))), max(abc, bytes(range(98, 99)), bytes(range(97, 98))))
print(abc + bytes(range(100, 102)), abc * 3, 2 * abc, abc * 0, abc * -1, True * abc, abc * False)
for b in abc:
    print(b, b + 1)
else:
    print('over')
long = abc
long += bytes(range(40, 60))
long += abc
print(long, len(long), len(abc))
print(len(abc * 349525))
def refused(f):
    try:
        f()
    except Exception as e:
        print(repr(e))
def past():
    return bytes(range(255, 257))
def below():
    return bytes(range(1, -2, -1))
def far():
    return bytes(range(0, 9223372036854775807, 9223372036854775807 // 2))
def of_text():
    return bytes('a')
def of_bytes():
    return bytes(abc)
def of_none():
    return bytes()
def too_long():
    return abc * 349526
def joined():
    return abc + 'a'
def turned():
    return 'a' + abc
def less():
    return abc < 'abc'
def least():
    return min('a', abc)
def number():
    return int(abc)
def code():
    return ord(bytes(range(97, 98)))
def times():
    return abc * abc
def minus():
    return -abc
refused(past)
refused(below)
refused(far)
refused(of_text)
refused(of_bytes)
refused(of_none)
refused(too_long)
refused(joined)
refused(turned)
refused(less)
refused(least)
refused(number)
refused(code)
refused(times)
refused(minus)
