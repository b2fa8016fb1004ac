b = b'abcab'
print(b'ca' in b, b'ac' in b, b'' in b, b'' in b'', 97 in b, 100 in b, True in b'\x01', b'abcabc' not in b)
print(b[0], b[4], b[-1], b[-5], b[True], b'\xff'[0])
t = (1, 'a', (2, 3), None, True)
print(1 in t, 'a' in t, (2, 3) in t, (3, 2) in t, None in t, 0 in t, 5 not in t, () in t, () in ((),))
print(t[0], t[1], t[2][-1], t[-1], t[-5], t[True], ((1, 2), 3)[0][1])
def tell(n):
    try:
        if n == 0:
            256 in b
        elif n == 1:
            -1 in b
        elif n == 2:
            'a' in b
        elif n == 3:
            b[5]
        elif n == 4:
            b[-6]
        elif n == 5:
            b['a']
        elif n == 6:
            t[5]
        elif n == 7:
            t[-6]
        elif n == 8:
            t[None]
        elif n == 9:
            1 in 1
        elif n == 10:
            b'a' in 'a'
        elif n == 11:
            tell in (1, tell)
    except (TypeError, ValueError, IndexError) as e:
        print(n, e)
for n in range(12):
    tell(n)
def say(x):
    print('say', x)
    return x
say(1) in (say(2), say(3))
(say('object'), 0)[say(1) - 1]
