try:
    raise 5
except TypeError as e:
    print(e)
try:
    raise print
except TypeError as e:
    print(e)
raise 'text'
