from concurrent import interpreters
i = interpreters.create()
print('on')
i.exec('while True: pass')
