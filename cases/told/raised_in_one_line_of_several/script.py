def f(): a = 1; return a // 0
print('before'); print(f()); print('after')
