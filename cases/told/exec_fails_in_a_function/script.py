from concurrent import interpreters
def host(text):
    i = interpreters.create()
    i.exec(text)

host('print(x)')
