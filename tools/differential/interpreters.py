"""The module `interpreters` by docs/LANGUAGE.md ("Interpreters and queues"), without threads: one interpreter runs at a
time, and what would wait is stuck."""

import threading

from calls import Calls
from messages import made
from operations import Execution, GivenUp, Interpreter, Module, Queue

MOST_INTERPRETERS = 8
MOST_QUEUES = 1024
KINDS = {name: type(name, (Exception,), {}) for name in ('InterpreterError', 'QueueEmpty', 'QueueFull')}
for name, above in ('InterpreterNotFoundError', 'InterpreterError'), ('ExecutionFailed', 'InterpreterError'):
    KINDS[name] = type(name, (KINDS[above],), {})
KINDS['NotShareableError'] = type('NotShareableError', (TypeError,), {})
ATTRIBUTES = {Interpreter: ('id',), Queue: ('id', 'maxsize')}


class Stuck(BaseException):
    """What waits would wait without end."""


def failed(kind, message):
    return made(KINDS[kind], message)


def is_shareable(value):
    if isinstance(value, tuple):
        return all(map(is_shareable, value))
    return value is None or isinstance(value, (int, str, bytes, Queue))


class Interpreters(Calls):
    """Methods and functions of modules have the name of their value's class, or of the module, before their own. Their
    parameters say what they take: CPython raises where they are called otherwise."""

    def __init__(self, budget):
        super().__init__(budget)
        self.interpreters, self.queues, self.is_stuck = [], [], False
        self.current = self.interpreters_create(None)
        self.current.is_running = True
        self.printed = self.current.printed

    def spend(self, amount=1):
        if self.is_stuck:
            raise Stuck
        super().spend(amount)

    def wait(self):
        self.is_stuck = True
        raise Stuck

    def written(self):
        return self.current.printed

    def report(self):
        """The report of the script, once it is over."""
        parts = [f'== interpreter {it.id} ==\n' + ''.join(it.printed + it.raised) for it in self.interpreters]
        return ''.join(parts) + f'end: {"stuck" if self.is_stuck else "finished"}\n'

    def attribute(self, value, name):
        if isinstance(value, Module) and value.name == 'interpreters' and name in KINDS:
            return KINDS[name]
        if isinstance(value, Interpreter) and name == 'exec':
            return Execution(interpreter=value)
        return getattr(value, name) if name in ATTRIBUTES.get(type(value), ()) else super().attribute(value, name)

    def interpreters_create(self, module):
        if len(self.interpreters) >= MOST_INTERPRETERS:
            raise failed('InterpreterError', 'too many interpreters')
        self.interpreters.append(Interpreter(id=len(self.interpreters), names=None, is_closed=False, is_running=False,
                                             printed=[], raised=[]))
        return self.interpreters[-1]

    def interpreters_list_all(self, module):
        return [it for it in self.interpreters if not it.is_closed]

    def interpreters_get_current(self, module):
        return self.current

    def interpreters_get_main(self, module):
        return self.interpreters[0]

    def interpreters_create_queue(self, module, maxsize=0):
        if not isinstance(maxsize, int):
            raise made(TypeError, 'wrong type')
        if len(self.queues) >= MOST_QUEUES:
            raise made(RuntimeError, 'too many queues')
        self.queues.append(Queue(id=len(self.queues), maxsize=max(0, int(maxsize)), items=[]))
        return self.queues[-1]

    def interpreters_is_shareable(self, module, obj):
        return is_shareable(obj)

    def need_open(self, interpreter):
        if interpreter.is_closed:
            raise failed('InterpreterNotFoundError', f'interpreter {interpreter.id} not found')

    def need_idle(self, interpreter):
        self.need_open(interpreter)
        if interpreter.is_running:
            raise failed('InterpreterError', f'interpreter {interpreter.id} is running')
        interpreter.names = interpreter.names or self.names()

    def Interpreter_is_running(self, interpreter):
        self.need_open(interpreter)
        return interpreter.is_running

    def Interpreter_close(self, interpreter):
        self.need_open(interpreter)
        for other, name in (self.current, 'current'), (self.interpreters[0], 'main'):
            if interpreter is other:
                raise failed('InterpreterError', f'interpreter is {name}')
        self.need_idle(interpreter)
        interpreter.is_closed = True

    def Interpreter_prepare_main(self, interpreter, pairs=None, /, **names):
        if pairs is not None and not isinstance(pairs, dict):
            raise made(TypeError, 'wrong type')
        for name, value in [*(pairs or {}).items(), *names.items()]:
            if not isinstance(name, str):
                raise made(TypeError, 'wrong type')
            self.need_shareable(value)
        self.need_idle(interpreter)
        interpreter.names.update(pairs or {}, **names)

    def Interpreter_exec(self, interpreter, code, /):
        if not isinstance(code, str):
            raise made(TypeError, 'wrong type')
        self.need_idle(interpreter)
        error = self.left_by(interpreter, code)
        if error is not None:
            raise failed('ExecutionFailed', self.told(error))

    def left_by(self, interpreter, code):
        """Runs a text in an interpreter, in which no exception is active, and gives the exception that leaves it."""
        left = []

        def run():
            try:
                self.run_text(code, interpreter.names)
            except BaseException as error:
                left.append(error)

        before = self.current, self.depth
        self.current, self.depth, interpreter.is_running = interpreter, 0, True
        thread = threading.Thread(target=run, daemon=True)
        thread.start()
        thread.join()
        (self.current, self.depth), interpreter.is_running = before, False
        if left and isinstance(left[0], (GivenUp, Stuck)):
            raise left[0]
        interpreter.raised += [f'raised {self.told(error)}\n' for error in left]
        return left[0] if left else None

    def need_shareable(self, value):
        if not is_shareable(value):
            raise failed('NotShareableError', 'not shareable')

    def Queue_full(self, queue):
        return 0 < queue.maxsize <= len(queue.items)

    def Queue_empty(self, queue):
        return not queue.items

    def Queue_qsize(self, queue):
        return len(queue.items)

    def Queue_put(self, queue, obj):
        self.need_shareable(obj)
        if self.Queue_full(queue):
            self.wait()
        queue.items.append(obj)

    def Queue_put_nowait(self, queue, obj):
        self.need_shareable(obj)
        if self.Queue_full(queue):
            raise failed('QueueFull', 'queue is full')
        queue.items.append(obj)

    def Queue_get(self, queue):
        return queue.items.pop(0) if queue.items else self.wait()

    def Queue_get_nowait(self, queue):
        if not queue.items:
            raise failed('QueueEmpty', 'queue is empty')
        return queue.items.pop(0)
