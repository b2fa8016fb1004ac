if x is y:
    pass
