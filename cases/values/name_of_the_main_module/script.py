print(__name__)
__name__ = 'other'
print(__name__)
