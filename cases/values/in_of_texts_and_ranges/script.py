print('ba' in 'abab', 'aa' in 'abab', '' in '', '' in 'a', 'a' in '', 'abc' in 'ab', 'ab' in 'ab')
print('aab' in 'aaab', 'abac' in 'ababac', 'ab' not in 'abab', 'c' not in 'abab')
print('\u20ac' in 'a\u20acb', 'b' in 'a\u20acb', 'a\u20ac' in 'a', 'caf\xe9' in 'un caf\xe9 noir', 'xab' in 'ab' * 10000)
print('ab' * 5000 + 'c' in 'ab' * 10000 + 'c', 'b' * 100 in 'a' * 100000)
print(0 in range(3), 2 in range(3), 3 in range(3), -1 in range(3), True in range(3), False in range(1, 3))
print(4 in range(0, 5, 2), 3 in range(0, 5, 2), 5 in range(0, 5, 2), 10 in range(10, 0, -3), 4 in range(10, 0, -3), 0 in range(10, 0, -3), 2 in range(10, 0, -3))
print('a' in range(3), None in range(3), '1' not in range(3), range(3) in range(3))
least = -9223372036854775807 - 1
print(least in range(least, 9223372036854775807), 9223372036854775807 in range(least, 9223372036854775807), 0 in range(least, 9223372036854775807, 2), 1 in range(least, 9223372036854775807, 2))
print(least in range(9223372036854775807, least, least), -1 in range(9223372036854775807, least, least), 9223372036854775807 in range(9223372036854775807, least, least))
print('a' in 'ab' in 'cab', 'b' in 'ab' == 'ab', 1 < 2 in range(3), not 'a' in 'b', not 'a' not in 'b')
print('a' + 'b' in 'abc', 'x' in 'ab' or 'b' in 'ab', 1 if 'a' in 'a' else 2)
for c in 'a-b c':
    if c in ' -':
        print('space')
    elif c not in 'ab':
        print('other', c)
i = 0
while i not in range(3, 5):
    i += 1
print(i)
