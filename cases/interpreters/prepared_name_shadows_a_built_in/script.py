from concurrent import interpreters
i = interpreters.create()
i.prepare_main(len=5, __name__='other')
i.exec('print(len, __name__)')
i.exec("len('a')")
