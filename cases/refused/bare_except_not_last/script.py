try:
    f()
except:
    pass
except A:
    pass
