print('it\'s', "it's", 'a\nb', "\"", '\\')
print('one' ' and ' "two")
