text = 'abcdefgh' * 131072
print(text, text, 7, text)
print('after')
