for x in ([], [0], {}, {0: 0}):
    print(bool(x), not x)
    if x:
        print('yes')
print([] or 'a', [1] and 'b', {} or [])
