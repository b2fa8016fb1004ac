try:
    raise
except RuntimeError as e:
    print(e)
try:
    raise ValueError
except ValueError:
    pass
raise
