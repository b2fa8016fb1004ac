from concurrent import interpreters
i = interpreters.create()
i.exec("from concurrent import interpreters\ni = interpreters.create()\ni.exec('print(1 // 0)')")
