from concurrent import interpreters
i = interpreters.create()
for text in ('return 1', 'x = 2\nbreak', 'def f():\n    import threading'):
    try:
        i.exec(text)
    except interpreters.ExecutionFailed as e:
        print(e)
i.exec('print(x)')
