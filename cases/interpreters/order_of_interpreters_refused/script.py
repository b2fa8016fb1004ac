from concurrent import interpreters
for text in ('a < b', 'a + b', 'a[0]', 'len(a)', 'a()', '-a', 'a in a'):
    i = interpreters.create()
    try:
        i.exec('from concurrent import interpreters\na = interpreters.get_main()\nb = interpreters.get_current()\n' + text)
    except interpreters.ExecutionFailed as e:
        print(text, e)
