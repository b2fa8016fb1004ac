x = lambda y: y
