s = 'a' * 1048576
print(len(''.join([s])))
for x in ([s, 'b'], [s, 1]):
    try:
        'b'.join(x)
    except OverflowError as e:
        print('OverflowError', e)
    except TypeError as e:
        print('TypeError', e)
