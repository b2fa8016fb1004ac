e = None
for k in range(200):
    e = ValueError(e)
print(e)
try:
    print(ValueError(e))
except RecursionError as x:
    print(x)
raise ValueError(e)
