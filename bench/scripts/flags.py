def first_unset(items):
    at = 0
    while True:
        if items[at] is None:
            break
        items[at] = False
        at += 1
    return at


def turn(items):
    unset = 0
    for item in items:
        if item is not None:
            continue
        unset += 1
    return unset


items = [True] * 1000
items.append(None)
total = 0
for k in range(500):
    total += first_unset(items)
    total += turn(items)
print(total)
