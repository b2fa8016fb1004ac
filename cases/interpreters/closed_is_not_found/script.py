from concurrent import interpreters
i = interpreters.create()
print(i.close())
for text in ('exec', 'prepare_main', 'is_running', 'close'):
    try:
        if text == 'exec':
            i.exec('print(1)')
        elif text == 'prepare_main':
            i.prepare_main(x=1)
        elif text == 'is_running':
            print(i.is_running())
        else:
            i.close()
    except interpreters.InterpreterNotFoundError as e:
        print(text, repr(e))
