for k in range(3):
    if k == 1: break
else:
    print('not here')
for k in range(3):
    if k == 1: continue
    print(k)
else:
    print('else', k)
for k in range(0):
    print('not here')
else:
    print('nothing gone over', k)
