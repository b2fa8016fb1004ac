def kind(k, name):
    print('test', name)
    return k
try:
    raise KeyError('k')
except kind(ValueError, 'value'):
    print('not here')
except kind(LookupError, 'lookup'):
    print('matched')
except kind(KeyError, 'key'):
    print('not here')
