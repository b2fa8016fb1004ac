def f(**args):
    pass
