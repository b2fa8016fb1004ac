# Items in place go to the ends of lists, and of what is no list the method is asked for as everywhere.
shared = []
marker = 'm'


def to_local(n):
    xs = []
    for i in range(n):
        xs.append(i)
        xs.append(-3)
        xs.append('a')
        xs.append(b'b')
        xs.append(None)
        xs.append(True)
        xs.append(marker)
        xs.append(2 + 3)
    return xs


def to_global(value):
    shared.append(value)
    shared.append(shared)
    shared.append(len)
    shared.append(40000)


def what(kind, message):
    print(kind, message)


def unbound_object():
    xs.append(missing)
    xs = []


def unbound_item():
    xs = []
    try:
        xs.append(y)
    except UnboundLocalError as e:
        what('UnboundLocalError', e)
    y = 1
    xs.append(y)
    return xs


print(to_local(1))
print(len(to_local(1000)), to_local(3)[16])
to_global((1, 2))
print(shared)
rows = []
row = []
rows.append(row)
row.append(rows)
row.append(row)
print(rows)

try:
    unbound_object()
except UnboundLocalError as e:
    what('UnboundLocalError', e)
print(unbound_item())
try:
    nowhere.append(missing)
except NameError as e:
    what('NameError', e)
try:
    shared.append(missing)
except NameError as e:
    what('NameError', e)
for other in ({}, (), 'text', b'', 5, None, True, range(3), print, ValueError, to_local):
    try:
        other.append(missing)
    except AttributeError as e:
        print('no append')
try:
    shared.append(1, 2)
except TypeError:
    print('two arguments')
try:
    shared.append(object=1)
except TypeError:
    print('by name')
print(shared.append(7), shared[-1])
count = 0
while count < 3:
    shared.append(count)
    count += 1
else:
    shared.append(marker)
print(shared[5], len(shared))
xs = [0]
for x in xs:
    if len(xs) < 6:
        xs.append(x)
print(xs)
append = 5
append_to = []
append_to.append(append)
print(append_to)
