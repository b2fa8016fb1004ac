try:
    interpreters.create()
except NameError as e:
    print(e)
threading.Thread
