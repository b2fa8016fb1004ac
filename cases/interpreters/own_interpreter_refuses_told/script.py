from concurrent import interpreters
me = interpreters.get_current()
print(me.id, me.is_running(), me == interpreters.get_main(), interpreters.list_all())
for k in range(7):
    try:
        if k == 0: me.prepare_main(x=1)
        elif k == 1: me.prepare_main()
        elif k == 2: me.prepare_main({'x': 1}, y=[2])
        elif k == 3: me.prepare_main([('x', 1)])
        elif k == 4: me.exec(5)
        elif k == 5: me.exec('x = 1')
        else: me.close()
    except Exception as e:
        print(k, repr(e))
