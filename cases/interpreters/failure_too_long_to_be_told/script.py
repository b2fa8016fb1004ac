from concurrent import interpreters
i = interpreters.create()
for n in (1048564, 1048565):
    try:
        i.exec("raise ValueError('a' * " + str(n) + ')')
    except interpreters.ExecutionFailed as e:
        print(len(str(e)))
    except OverflowError as e:
        print(e)
