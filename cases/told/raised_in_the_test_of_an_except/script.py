try:
    print('tried')
    [][0]
except KeyError:
    print('key')
except IndexFault:
    print('index')
