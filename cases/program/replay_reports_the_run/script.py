print('ok')
print(1 // 0)
