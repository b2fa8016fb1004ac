a = [1, 'a', [2], None]
print(1 in a, True in a, [2] in a, 2 in a, 'a' not in a, None in a, () in a, a in [a])
