def first_from(items, least):
    at = 0
    while True:
        if items[at] is None:
            at += 1
            continue
        if items[at] >= least:
            break
        at += 1
    return at


def kind(value):
    if value is None:
        return 'None'
    if value is True:
        return 'True'
    if value is False:
        return 'False'
    if value == True:
        return 'equal to True'
    if False == value:
        return 'equal to False'
    if value != None:
        return 'something'


def told(flag):
    return True if flag else None


print(first_from([None, 1, 2, None, 5, 7], 4))
for value in (None, True, False, 1, 0, 2, '', [None]):
    print(repr(value), kind(value))
print(told(3), told(0), told(''), not True, not None, -True, ~False)
flags = [None, True, False]
flags[0] = True
flags[1] = False
flags[2] = None
print(flags, flags == [True, False, None], None in flags, True in flags, 1 in flags)
flags[False] = None
flags[True] += True
print(flags[True], flags[False], 'ab'[True], True + True, True * 3, 7 - True, False or None, True and False)
nothing = None
yes = True
print(nothing, yes, nothing is None, yes is not None, None is None, True is not False)
while False:
    print('never')
else:
    print('at once')
while True:
    try:
        print(None + True)
    except TypeError:
        print('no sum')
        break
    finally:
        print('left')
raise None
