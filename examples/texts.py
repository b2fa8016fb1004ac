# Texts are joined by '+' and repeated by '*'; two literals side by side are one.
name = 'Ada'; greeting = 'Good day, ' "dear "
print(greeting + name + '!')
print('-' * 20)
print('it\'s', "it's", 'a \"quote\"', 'a \\ backslash', 'two\nlines')
print('grüße', 'ü' * 3)

# print is a value like any other, and gives None
show = print
nothing = show('shown')
print(nothing, show)
print(name, __name__)
