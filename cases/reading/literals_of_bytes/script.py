# bytes literals: prefixes, quotes, each escape, raw ones, and several beside each other
print(b'abc', B"abc", b'''a
b''', b"""it's "so" """, b'', b"'", b'"')
print(rb'\n', bR"\x41", Br'''\'''', RB"\"", rB'\
', br'a')
print(b'\\', b'\'', b"\"", b'\a\b\f\n\r\t\v', b'a\
b', len(b'\
'))
print(b'\0', b'\7', b'\12', b'\101', b'\377', b'\1234', b'\08')
print(b'\x00', b'\x41', b'\xFf', b'\x414')
print(b'\q', b'\u0041', b'\U00000041', b'\N{a}', b'\8', b'\ ')
print(b'a' b'b', b'a' rb'\n' B'\n', (b'a'
    b'c' b""))
print(b'abc' == bytes(range(97, 100)), b'' == '', b'a' + b'b', b'ab' * 2, len(b'\xff\x00'))
for n in b'\x00a\xff':
    print(n)
def f():
    return b'in a function'
print(f(), f() == f())
print('a' if b'' else 'empty', not b'a')
b = 'a name'
br = 1
print(b, br, b'b', br'br')
try:
    b'a' + 'a'
except TypeError as e:
    print(repr(e))
