from concurrent import interpreters
interpreters.create()
interpreters.create()
