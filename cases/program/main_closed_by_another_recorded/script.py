from concurrent import interpreters
i = interpreters.create()
i.exec("from concurrent import interpreters\ninterpreters.get_main().close()")
