result = 'never asked for'
while True:
    pass
