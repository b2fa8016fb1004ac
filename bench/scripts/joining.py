n = 0
total = 0
while n < 300000:
    s = 'a' + 'b' * 3
    if s + 'c' == 'abbbc':
        total += 1
    n += 1
print(total)
