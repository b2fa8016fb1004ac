*a, b = x
