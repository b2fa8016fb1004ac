kept = None
for k in range(10000):
    try:
        raise ValueError(kept)
    except ValueError as e:
        kept = e
    try:
        raise KeyError(k)
    except LookupError as e:
        last = e
print(repr(last), kept == kept, kept == last)
try:
    print(kept)
except RecursionError as e:
    print(e)
