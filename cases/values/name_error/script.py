print('before')
print(missing)
print('after')
