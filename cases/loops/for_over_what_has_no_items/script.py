try:
    for k in 5: print('not here')
except TypeError as e:
    print(e)
for k in None: pass
