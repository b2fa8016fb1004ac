"""Scripts of the module `concurrent.interpreters`, in which one interpreter runs at a time."""

from grammar import Grammar, row

START = '''from concurrent import interpreters
q0 = interpreters.create_queue(); q1 = interpreters.create_queue(1); q2 = interpreters.create_queue(maxsize=2)
i0 = interpreters.create(); i1 = interpreters.create(); i2 = interpreters.get_current()
i0.prepare_main(q=q0, x=1); i1.prepare_main(q=q2, x=2)
l0 = [1]
'''
IMPORT = r'from concurrent import interpreters\n'
FORMS = {
    'PART': ['try:\n   STATEMENT\nexcept Exception as e: print($, repr(e))'] * 9 + [
        'try: STATEMENT\nexcept interpreters.KIND as e: print($, e)\nexcept Exception as e: print($, repr(e))'],
    'STATEMENT': ['print(EXPRESSION)'] * 6 + row('''EXEC.exec(TEXT)  print(EXEC.exec(TEXT))
        INTERP = interpreters.create()  QUEUE.put_nowait(VALUE)  QUEUE.put_nowait(VALUE)
        QUEUE = interpreters.create_queue(SIZE)  raise interpreters.KIND  raise interpreters.KIND(VALUE)
        print(QUEUE.get_nowait())  while QUEUE.qsize(): print(QUEUE.get())''') + [
        'if not QUEUE.full(): QUEUE.put(VALUE)', 'if QUEUE.qsize(): print(QUEUE.get())'],
    'EXPRESSION': row('''interpreters.list_all()  interpreters.get_current()  interpreters.get_main()  QUEUE.qsize()
        QUEUE.empty()  QUEUE.full()  QUEUE.id  QUEUE.maxsize  INTERP.id  INTERP.exec  INTERP  QUEUE  interpreters
        INTERP.is_running()  INTERP.close()  INTERP == INTERP  INTERP != QUEUE  QUEUE in [q0, q1]
        INTERP.exec == INTERP.exec  interpreters.is_shareable(VALUE)  interpreters.is_shareable(obj=VALUE)
        INTERP.prepare_main(PAIRS)  interpreters.KIND  interpreters.create_queue(SIZE)  QUEUE.get_nowait()
        QUEUE.put_nowait(obj=VALUE)  QUEUE.put_nowait(VALUE)  ODD'''),
    'ODD': row('''QUEUE.put()  QUEUE.put(1, 2)  QUEUE.put(x=1)  QUEUE.put(VALUE)  QUEUE.get()  QUEUE.get(1)
        QUEUE.qsize(x=1)  INTERP.exec()  INTERP.exec(1)  INTERP.exec(code='1')  interpreters.create(1)  interpreters.x
        QUEUE.put  INTERP.x  QUEUE.x()  interpreters.Thread  QUEUE + 1  INTERP < INTERP
        interpreters.create_queue(1, maxsize=1)  interpreters.is_shareable()  len(QUEUE)  {QUEUE: 1}  bool(INTERP)'''),
    'PAIRS': row('''x=VALUE  x=VALUE  {'x': VALUE}  {'x': 1}, y=VALUE  {'x': 1}, x=2  q=QUEUE  q=QUEUE, x=(1, q1)  {}
        None  []  {1: 2}  {'x': print}, x=1  {'z': VALUE, 'y': [1]}  1, 2'''),
    'SIZE': row('1  2  0  -1  maxsize=2  maxsize=True  VALUE'),
    'VALUE': row('''0  -5  9223372036854775807  True  None  'a'  ''  'é\\n'  b'x\\xff'  b''  ()  (VALUE,)
        (VALUE, VALUE)  QUEUE  [1]  {}  print  ValueError  INTERP  range(3)  (1, [2])  l0  1'''),
    'KIND': row('''QueueEmpty  QueueFull  InterpreterError  InterpreterNotFoundError  ExecutionFailed
        NotShareableError'''),
    'INTERP': row('i0  i1  i2'), 'EXEC': row('i0  i1  i0  i1  i2'), 'QUEUE': row('q0  q1  q2'),
    'TEXT': row(r"""''  'x = 1'  'x += 1'  'x'  'if not q.full(): q.put(x)'  'q.put_nowait(x)'  'x = (x, 1)'  '1 // 0'
        'raise ValueError(x)'  'print(x)'  'raise KeyError("k")'  'q.put_nowait((x, q.qsize()))'  'raise'  'x = ('
        'break'  'def f(): return x\nq.put_nowait(f())'  'x = [1]\nq.put_nowait(x)'  'raise ValueError'  'return'
        'if x:\n y = 1\nelse:\n y = 2\nq.put_nowait(y)'  'raise ValueError("")'  'try:\n 1 // 0\nfinally:\n print("f")'
        'raise ValueError(ValueError("in"))'  'x = 1\n x'  'q.put_nowait(__name__)'  'print(q, x)'  'q.put_nowait(q)'
        'while not q.empty(): x = q.get()'  'for k in range(3):\n print(k)\n x = k'  'w = q\nprint(w == q)'
        'x = 1\nprint(undefined)'""") + [
        f"'{IMPORT}{text}'" for text in row(r"""print(interpreters.get_current().id)  interpreters.get_main().exec("1")
            interpreters.get_current().close()  interpreters.get_main().close()  print(interpreters.list_all())
            q.put_nowait(interpreters.get_main().is_running())  i = interpreters.get_current()\ni.exec("1")
            for i in interpreters.list_all():\n print(i.is_running())
            i = interpreters.create()\ni.exec("print(5)")\ni.close()""")],
}


def exchanges(random):
    grammar = Grammar(random, FORMS, {'VALUE': ['0', "'a'", 'None', 'QUEUE']})
    return START, grammar.parts(60, 5)
