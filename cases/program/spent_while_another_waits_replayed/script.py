from concurrent import interpreters
i = interpreters.create()
i.exec('while True: pass')
