from concurrent import interpreters
i = interpreters.create()
for text in ('interpreters.get_main().close()', 'interpreters.get_current().close()'):
    try:
        i.exec('from concurrent import interpreters\n' + text)
    except interpreters.ExecutionFailed as e:
        print(e)
print(i.is_running(), interpreters.get_main().is_running())
i.close()
