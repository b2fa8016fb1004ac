x = 'global'
def local():
    x = 'local'
    return x
def shared():
    global x
    x = 'changed'
    return x
print(local(), x)
print(shared(), x)
