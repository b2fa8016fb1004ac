e = KeyError(ValueError(KeyError('deep')))
print(e)
print(repr(e))
print(ValueError(KeyError(5)), ValueError(None), ValueError(''))
