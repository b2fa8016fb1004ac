from concurrent import interpreters
i = interpreters.create()
i.close()
for k in range(5):
    try:
        if k == 0: i.prepare_main([])
        elif k == 1: i.exec(1)
        elif k == 2: i.prepare_main({1: 2})
        elif k == 3: i.prepare_main(x=[1])
        else: i.exec('(')
    except Exception as e:
        print(repr(e))
