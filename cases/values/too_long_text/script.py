x = 'x' * 1048576
print('made')
y = x + 'x'
