while True: pass
break
