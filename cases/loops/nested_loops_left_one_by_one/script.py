for a in range(3):
    for b in 'xyz':
        if b == 'y': break
        print(a, b)
    else:
        print('not here')
    if a == 1: break
else:
    print('not here')
print(a, b)
