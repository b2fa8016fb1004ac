try:
    try:
        raise ValueError('first')
    except ValueError as e:
        raise KeyError('second')
except LookupError as e:
    print(repr(e))
print('on')
