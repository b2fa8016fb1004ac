try:
    try:
        print('suite')
    except ValueError:
        print('not here')
    else:
        raise ValueError('else')
except ValueError as e:
    print('outside', e)
