print('printed')
print(1 // 0)
