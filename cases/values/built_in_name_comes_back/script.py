try:
    raise ValueError('v')
except ValueError as repr:
    print(repr)
print(repr('back'))
