from concurrent import interpreters
i = interpreters.create()
i.exec('n = 0\ndef count(by):\n    global n\n    n += by\n    return n')
i.exec('print(count(1), count(2))')
i.exec('def twice(by):\n    count(by)\n    return count(by)')
i.exec("print(twice(10), n, count)")
