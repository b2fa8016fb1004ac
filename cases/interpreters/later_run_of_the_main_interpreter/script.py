import threading
from concurrent import interpreters
i = interpreters.create()
text = "from concurrent import interpreters\nmain = interpreters.get_main()\nwhile main.is_running(): pass\nmain.exec(\"print(x)\\nraise ValueError('late')\")"
x = 'again'
threading.Thread(target=i.exec, args=(text,)).start()
print('over')
