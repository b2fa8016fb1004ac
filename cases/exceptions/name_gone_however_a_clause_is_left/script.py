def f(how):
    for k in range(2):
        try:
            raise ValueError(k)
        except ValueError as e:
            if how == 'break': break
            if how == 'continue': continue
            if how == 'return': return 'returned'
            if how == 'rebind': e = 7
    try:
        return e
    except UnboundLocalError as u:
        return u
print(f('break'))
print(f('continue'))
print(f('return'))
print(f('rebind'))
