try:
    raise ValueError('outer')
except ValueError:
    try:
        raise KeyError('inner')
    except KeyError:
        pass
    try:
        raise
    except ValueError as e:
        print(e)
