d = {1: 'a', 'k': 2}
print(1 in d, 'k' in d, 'a' in d, 2 not in d, 'k' not in d)
