def kind():
    try:
        raise
    except LookupError as e:
        print('active', repr(e))
    return ValueError
try:
    try:
        raise KeyError('k')
    except kind():
        print('not here')
except KeyError as e:
    print(e)
