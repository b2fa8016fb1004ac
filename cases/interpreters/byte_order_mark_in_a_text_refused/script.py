from concurrent import interpreters
interpreters.create().exec('\ufeffprint(1)')
