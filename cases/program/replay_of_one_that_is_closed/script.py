from concurrent import interpreters
interpreters.create().close()
