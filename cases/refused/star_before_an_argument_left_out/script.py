f(*x)
