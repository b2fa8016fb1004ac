while True:
    try:
        pass
    finally:
        break
