print(len(''), len('caf\xe9 \u20ac'), len(range(0)), len(range(7)), len(range(10, 0, -3)), len(range(0, 10, -3)))
print(len(range(-9223372036854775806, 1)), len('ab' * 5000))
print(bool(''), bool('a'), bool(0), bool(-1), bool(None), bool(range(0)), bool(range(1)), bool(len), bool(ValueError()))
print(abs(7), abs(-7), abs(0), abs(True), abs(-9223372036854775807))
print(int(7), int(True), int(False), int('7'), int('+7'), int('-7'), int('-0'), int('007'))
print(int(' -1_000 '), int('\t\n\v\f\r 1_2_3 \r\f\v\n\t'), int('9223372036854775807'))
print(int('-9223372036854775808') == -9223372036854775807 - 1)
print(int('0' * 1000 + '12') + 1)
print(ord('a'), ord('\xe9'), ord('\u20ac'), ord('\U0010ffff'), ord('\x00'), ord(' '))
print(chr(97), chr(233), chr(8364), chr(True) == '\x01', ord(chr(1114111)), len(chr(0)), chr(55295) < chr(57344))
print(min(1, True), min(True, 1), max(1, True), max(True, 1))
print(min('b', 'a'), max('b', 'a'), min(3, 1, 2), max(1, 3, 2), max('b', 'ba', 'a', 'B'), min('', 'a'))
print(min(-1, False, 5, -1, True), max(-9, -7, -8, -7))
text = ''
for letter in 'hal':
    text = text + chr(ord(letter) + 1)
print(text, len(text))
f = max
print(f(1, 2), f == max, f == min, len == len, int == bool)
