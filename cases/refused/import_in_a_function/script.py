def f():
    import threading
