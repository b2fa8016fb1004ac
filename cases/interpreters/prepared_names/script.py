from concurrent import interpreters
i = interpreters.create()
q = interpreters.create_queue(3)
print(i.prepare_main(a=None, b=True, c=-9223372036854775807, d='\u00e9', e=b'\x00\xff', f=(1, ('x', ()), False), g=q))
i.exec('print(a, b, c, d, e, f, g, g.maxsize)')
