from concurrent import interpreters
i = interpreters.create()
for text in ["print(1)", "x = 1\nif x = 1:\n    print(x)"]:
    try:
        i.exec(text)
    except interpreters.ExecutionFailed as e:
        print(e)
