try:
    print(len(7))
except Exception as e:
    print(repr(e))
try:
    print(len(None))
except Exception as e:
    print(repr(e))
try:
    print(len(len))
except Exception as e:
    print(repr(e))
try:
    print(len())
except Exception as e:
    print(repr(e))
try:
    print(len('a', 'b'))
except Exception as e:
    print(repr(e))
try:
    print(len(range(-9223372036854775807, 9223372036854775807)))
except Exception as e:
    print(repr(e))
try:
    print(bool())
except Exception as e:
    print(repr(e))
try:
    print(bool(1, 2))
except Exception as e:
    print(repr(e))
try:
    print(abs('a'))
except Exception as e:
    print(repr(e))
try:
    print(abs(None))
except Exception as e:
    print(repr(e))
try:
    print(abs(1, 2))
except Exception as e:
    print(repr(e))
try:
    print(abs(-9223372036854775807 - 1))
except Exception as e:
    print(repr(e))
try:
    print(int())
except Exception as e:
    print(repr(e))
try:
    print(int(''))
except Exception as e:
    print(repr(e))
try:
    print(int(' '))
except Exception as e:
    print(repr(e))
try:
    print(int('1__0'))
except Exception as e:
    print(repr(e))
try:
    print(int('_1'))
except Exception as e:
    print(repr(e))
try:
    print(int('1_'))
except Exception as e:
    print(repr(e))
try:
    print(int('1 2'))
except Exception as e:
    print(repr(e))
try:
    print(int('- 1'))
except Exception as e:
    print(repr(e))
try:
    print(int('+-1'))
except Exception as e:
    print(repr(e))
try:
    print(int('+'))
except Exception as e:
    print(repr(e))
try:
    print(int('0x1'))
except Exception as e:
    print(repr(e))
try:
    print(int('99999999999999999999x'))
except Exception as e:
    print(repr(e))
try:
    print(int('\xb2'))
except Exception as e:
    print(repr(e))
try:
    print(int('\u0663'))
except Exception as e:
    print(repr(e))
try:
    print(int('9223372036854775808'))
except Exception as e:
    print(repr(e))
try:
    print(int('-9223372036854775809'))
except Exception as e:
    print(repr(e))
try:
    print(int('9' * 5000))
except Exception as e:
    print(repr(e))
try:
    print(int(None))
except Exception as e:
    print(repr(e))
try:
    print(int('12', 8))
except Exception as e:
    print(repr(e))
try:
    print(ord(''))
except Exception as e:
    print(repr(e))
try:
    print(ord('ab'))
except Exception as e:
    print(repr(e))
try:
    print(ord(97))
except Exception as e:
    print(repr(e))
try:
    print(chr(-1))
except Exception as e:
    print(repr(e))
try:
    print(chr(55296))
except Exception as e:
    print(repr(e))
try:
    print(chr(57343))
except Exception as e:
    print(repr(e))
try:
    print(chr(1114112))
except Exception as e:
    print(repr(e))
try:
    print(chr(9223372036854775807))
except Exception as e:
    print(repr(e))
try:
    print(chr('a'))
except Exception as e:
    print(repr(e))
try:
    print(min(1, 'a'))
except Exception as e:
    print(repr(e))
try:
    print(min('a', 1))
except Exception as e:
    print(repr(e))
try:
    print(max(1, None))
except Exception as e:
    print(repr(e))
try:
    print(max(2, 3, 'a'))
except Exception as e:
    print(repr(e))
try:
    print(min())
except Exception as e:
    print(repr(e))
try:
    print(max('ba'))
except Exception as e:
    print(repr(e))
try:
    print(min(None, None))
except Exception as e:
    print(repr(e))
print(len, bool, abs, int, ord, chr, min, max)
try:
    int(object=1)
except TypeError as e:
    print(e)
len = 'mine'
print(len)
