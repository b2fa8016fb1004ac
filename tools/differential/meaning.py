"""What a script prints: by docs/LANGUAGE.md (`by_the_rules`), and in CPython as it is (`as_it_is`).

By the rules, control flow, scopes and the order of evaluation are CPython's own: each operation of the script's tree
becomes a call of the model (operations.py, calls.py, interpreters.py), which does what the page says. In CPython as it
is the script runs unchanged, but for `print`, `str` and `repr`, so that all is told in the page's words.
"""

import ast
import builtins
import contextlib
import itertools
import signal

from calls import BUILT_INS, Calls
from interpreters import Interpreters, Stuck
from messages import made
from operations import BuiltIn, GivenUp, Module, OPERATIONS

BUDGET = 300_000
SECONDS = 3
KINDS = {it.__name__: it for it in (
    BaseException, Exception, ArithmeticError, OverflowError, ZeroDivisionError, AttributeError, LookupError, KeyError,
    IndexError, NameError, UnboundLocalError, RuntimeError, RecursionError, SyntaxError, TypeError, ValueError)}
SIGNS = {ast.Add: '+', ast.Sub: '-', ast.Mult: '*', ast.FloorDiv: '//', ast.Mod: '%', ast.Pow: '**', ast.BitOr: '|',
         ast.BitAnd: '&', ast.BitXor: '^', ast.LShift: '<<', ast.RShift: '>>', ast.UAdd: '+', ast.USub: '-',
         ast.Invert: '~', ast.Eq: '==', ast.NotEq: '!=', ast.Lt: '<', ast.Gt: '>', ast.LtE: '<=', ast.GtE: '>=',
         ast.In: 'in', ast.NotIn: 'not in', ast.Is: 'is', ast.IsNot: 'is not'}
# what the rewritten script asks of the model
ASKED = ('binary', 'unary', 'compared', 'display', 'item', 'delete_item', 'augmented', 'turns', 'to_raise', 'call',
         'method', 'attribute')


def of_model(name):
    """A name of the model, which no script can have, since there is a space in it."""
    return ast.Name(f'the {name}', ast.Load())


def ask(name, *arguments):
    return ast.Call(of_model(name), list(arguments), [])


def sign_of(operator):
    return ast.Constant(SIGNS[type(operator)])


class Rewriting(ast.NodeTransformer):
    """Puts a call of the model in the place of each operation."""

    def __init__(self):
        self.numbers = itertools.count()

    def visit_BinOp(self, node):
        self.generic_visit(node)
        return ask('binary', sign_of(node.op), node.left, node.right)

    def visit_UnaryOp(self, node):
        self.generic_visit(node)
        return node if isinstance(node.op, ast.Not) else ask('unary', sign_of(node.op), node.operand)

    def visit_Compare(self, node):
        self.generic_visit(node)
        return self.chain(node.left, list(zip(node.ops, node.comparators)))

    def chain(self, left, rest):
        """`a < b < c` as `middle < c if (test := a < (middle := b)) else test`."""
        (operator, right), *others = rest
        if not others:
            return ask('compared', sign_of(operator), left, right)
        middle, test = (f'the operand {next(self.numbers)}' for _ in range(2))
        asked = ask('compared', sign_of(operator), left, ast.NamedExpr(ast.Name(middle, ast.Store()), right))
        rest = self.chain(ast.Name(middle, ast.Load()), others)
        return ast.IfExp(ast.NamedExpr(ast.Name(test, ast.Store()), asked), rest, ast.Name(test, ast.Load()))

    def visit_Dict(self, node):
        self.generic_visit(node)
        return ask('display', *itertools.chain(*zip(node.keys, node.values)))

    def visit_Subscript(self, node):
        self.generic_visit(node)
        if isinstance(node.ctx, ast.Load):
            return ask('item', node.value, node.slice)
        return ast.Subscript(ask('target', node.value), node.slice, node.ctx)

    def visit_Delete(self, node):
        whole, at = node.targets[0].value, node.targets[0].slice
        return ast.Expr(ask('delete_item', self.visit(whole), self.visit(at)))

    def visit_AugAssign(self, node):
        self.generic_visit(node)
        if not isinstance(node.target, ast.Name):
            return node
        value = ast.Name(node.target.id, ast.Load())
        return ast.Assign([node.target], ask('augmented', sign_of(node.op), value, node.value))

    def visit_For(self, node):
        self.generic_visit(node)
        node.iter = ask('turns', node.iter)
        return node

    def visit_Raise(self, node):
        self.generic_visit(node)
        node.exc = node.exc and ask('to_raise', node.exc)
        return node

    def visit_Call(self, node):
        callee = node.func
        if isinstance(callee, ast.Attribute):
            callee = ask('method', self.visit(callee.value), ast.Constant(callee.attr))
        else:
            callee = self.visit(callee)
        named = [ast.keyword(it.arg, self.visit(it.value)) for it in node.keywords]
        return ast.Call(of_model('call'), [callee, *map(self.visit, node.args)], named)

    def visit_Attribute(self, node):
        self.generic_visit(node)
        return ask('attribute', node.value, ast.Constant(node.attr))

    def visit_Import(self, node):
        return ast.Assign([ast.Name('threading', ast.Store())], of_model('threading'))

    def visit_ImportFrom(self, node):
        return ast.Assign([ast.Name('interpreters', ast.Store())], of_model('interpreters'))


def target_of(model):
    """What stands for the object of an item that is set, or changed by an augmented assignment."""
    class Item:
        def __init__(self, value):
            self.value = value

    class Target:
        def __init__(self, whole):
            self.whole = whole

        def __getitem__(self, at):
            return Item(model.item(self.whole, at))

        def __setitem__(self, at, value):
            model.set_item(self.whole, at, value)

    for sign, function in OPERATIONS.items():
        in_place = f'__i{function.__name__.strip("_")}__'
        setattr(Item, in_place, lambda self, right, sign=sign: model.augmented(sign, self.value, right))
    return Target


class Model(Interpreters):
    def __init__(self):
        super().__init__(BUDGET)
        self.known = KINDS | self.built_ins() | {f'the {name}': getattr(self, name) for name in ASKED} | {
            'the target': target_of(self), 'the threading': Module(name='threading', path='threading'),
            'the interpreters': Module(name='interpreters', path='concurrent.interpreters')}

    def names(self):
        """What is bound in an interpreter from the start."""
        return {'__builtins__': self.known, '__name__': '__main__'}

    def run_text(self, text, names):
        try:
            compile(text, 'script', 'exec')
            tree = Rewriting().visit(ast.parse(text))
        except (SyntaxError, ValueError):
            raise made(SyntaxError, 'invalid syntax') from None
        try:
            exec(compile(ast.fix_missing_locations(tree), 'script', 'exec'), names)
        except RecursionError as error:
            if not hasattr(error, 'by_the_rules'):
                self.give_up()
            raise


class PlainBuiltIn(BuiltIn):
    def __call__(self, *given):
        return self.function(*given)


@contextlib.contextmanager
def bounded_in_time(model):
    before = signal.signal(signal.SIGALRM, lambda *_: model.give_up())
    signal.setitimer(signal.ITIMER_REAL, SECONDS, 1)
    try:
        yield
    finally:
        signal.setitimer(signal.ITIMER_REAL, 0)
        signal.signal(signal.SIGALRM, before)


def left_by(model, start):
    """Runs a script, and tells the exception that leaves it: no line, or one."""
    try:
        with bounded_in_time(model):
            try:
                start()
            except (GivenUp, Stuck, KeyboardInterrupt):
                raise
            except BaseException as error:
                return [f'raised {model.told(error)}\n']
    except (GivenUp, Stuck):
        pass
    return []


def by_the_rules(script):
    """The model after a run of the script, or None where it is more than the model takes on."""
    model = Model()
    model.interpreters[0].raised += left_by(model, lambda: model.run_text(script, model.names()))
    return None if model.budget < 0 else model


def as_it_is(script):
    """The lines of the script in CPython as it is, or None where it takes long."""
    telling = Calls(BUDGET)
    plain = {'print': telling.to_print, 'str': telling.text, 'repr': telling.shown}
    known = KINDS | {name: getattr(builtins, name) for name in BUILT_INS}
    known |= {name: PlainBuiltIn(name=name, function=function) for name, function in plain.items()}
    names = {'__builtins__': known, '__name__': '__main__'}
    told = left_by(telling, lambda: exec(compile(script, 'script', 'exec'), names))
    return telling.printed + told if telling.budget >= 0 else None
