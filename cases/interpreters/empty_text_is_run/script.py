from concurrent import interpreters
i = interpreters.create()
print(i.exec(''), i.exec('# nothing'))
