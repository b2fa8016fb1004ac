try:
    raise ValueError('v')
except ValueError:
    print('matched first')
except 5:
    print('not here')
try:
    try:
        raise ValueError('v')
    except 5:
        print('not here')
    except ValueError:
        print('nor here')
except TypeError as e:
    print(e)
