from concurrent import interpreters
i = interpreters.create()
try:
    i.exec('print(interpreters)')
except interpreters.ExecutionFailed as e:
    print(e)
i.exec('from concurrent import interpreters\nprint(interpreters.get_current(), interpreters.get_main())')
