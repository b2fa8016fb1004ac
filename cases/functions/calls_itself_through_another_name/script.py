def count(n):
    if n == 0: return 'done'
    print(n)
    return again(n - 1)
again = count
def count(n): return 'another'
print(again(2), count(2))
