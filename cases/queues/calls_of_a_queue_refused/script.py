from concurrent import interpreters
i = interpreters.create()
q = interpreters.create_queue()
i.prepare_main(q=q)
for text in ('q.put()', 'q.put(1, 2)', 'q.put(object=1)', 'q.put(1, obj=2)', 'q.put_nowait()', 'q.put_nowait(item=1)', 'q.get(1)',
             'q.get(timeout=1)', 'q.get_nowait(1)', 'q.qsize(1)', 'q.empty(x=1)', 'q.full(None)', 'q.put(1, timeout=1)', 'q.put', 'q.pop()',
             'q < q', 'len(q)', 'q[0]', 'q()', 'for k in q: pass', '1 in q'):
    try:
        i.exec(text)
    except interpreters.ExecutionFailed as e:
        print(text, '-', e)
q.put(obj=5)
q.put_nowait(obj=6)
print(q.get(), q.get(), q.qsize())
