from concurrent import interpreters
i = interpreters.create()
i.exec('from concurrent import interpreters\nq = interpreters.create_queue()\ni = interpreters.create()')
for text in ('interpreters.create(1)', 'interpreters.create(x=1)', 'interpreters.get_current(1)', 'interpreters.get_main(1)',
             'interpreters.create_queue(1, 2)', 'interpreters.create_queue(size=1)', 'interpreters.create_queue(None)',
             "interpreters.create_queue('1')", 'interpreters.create_queue((1,))', 'interpreters.is_shareable()',
             'interpreters.is_shareable(object=1)', 'interpreters.is_shareable(1, 2)', 'i.exec()', "i.exec('1', '2')",
             "i.exec(code='1')", 'i.exec(1)', "i.exec(b'1')", 'i.exec(None)', 'i.is_running(1)', 'i.close(x=1)'):
    try:
        i.exec(text)
    except interpreters.ExecutionFailed as e:
        print(text, '-', e)
