for c in 'aé☃\n':
    print(repr(c))
for c in '':
    print('not here')
else:
    print('empty')
