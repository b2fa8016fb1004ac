def name_of(k):
    return 'a text with the number ' + str(k)
for k in range(10000):
    text = name_of(k)
    if k % 2500 == 0:
        print(text)
print(text, text == name_of(9999), name_of(1) == name_of(10000))
