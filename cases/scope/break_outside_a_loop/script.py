print(1)
if True:
    break
