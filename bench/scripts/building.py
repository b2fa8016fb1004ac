text = ''
for k in range(4000):
    text += str(k) + ','
    if k % 1000 == 999:
        print(repr(text) == text)
        text = ''
count = 0
for word in range(200000):
    for letter in 'ab':
        if letter == 'b':
            count += 1
print(count)
