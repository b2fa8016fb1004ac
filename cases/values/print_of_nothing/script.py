print()
print('')
print('', '')
