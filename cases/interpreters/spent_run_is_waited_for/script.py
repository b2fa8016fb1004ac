from concurrent import interpreters
i = interpreters.create()
print('before')
i.exec("print('there')\nwhile True: pass")
print('after')
