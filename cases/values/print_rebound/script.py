show = print
print = 5
show(print)
print(1)
