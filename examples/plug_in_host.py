# A host that runs plug-ins, each in an interpreter of its own: none sees what another binds, and one that fails takes nobody
# along.
from concurrent import interpreters

plug_ins = (
    ('lines', '''
lines = 0
for c in text:
    if c == '\\n':
        lines += 1
answers.put(lines)
'''),
    ('rude', '''
print = None
len = 0
answers.put((text, 'is mine'))
'''),
    ('broken', '''
answers.put(len(text) // lines)
'''),
    ('silent', '''
print('nothing to say of', len(text), 'characters')
'''),
)

answers = interpreters.create_queue()
for plug_in in plug_ins:
    own = interpreters.create()
    own.prepare_main(text='one\ntwo\n', answers=answers)
    try:
        own.exec(plug_in[1])
        print(plug_in[0], 'answers', answers.get_nowait())
    except interpreters.ExecutionFailed as failure:
        print(plug_in[0], 'fails:', failure)
    except interpreters.QueueEmpty:
        print(plug_in[0], 'gives no answer')
    own.close()
