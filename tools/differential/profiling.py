"""Whether a text that CPython reads is within the profile, by docs/LANGUAGE.md ("A script's text", "Tokens", "Grammar",
"Where statements and names stand"), judged by CPython's tokens and tree. How deep all may be nested is left out."""

import ast
import io
import keyword
import re
import tokenize

KNOWN = (ast.Module, ast.Expr, ast.Pass, ast.Break, ast.Continue, ast.Return, ast.Global, ast.If, ast.While, ast.Try,
         ast.alias, ast.ExceptHandler, ast.Name, ast.BoolOp, ast.boolop, ast.BinOp, ast.UnaryOp, ast.unaryop, ast.IfExp,
         ast.cmpop, ast.Call, ast.Attribute, ast.Tuple, ast.List, ast.expr_context, ast.Add, ast.Sub, ast.Mult,
         ast.FloorDiv, ast.Mod, ast.Pow, ast.BitAnd, ast.BitOr, ast.BitXor, ast.LShift, ast.RShift)
IMPORT = "Import(names=[alias(name='threading')])"
IMPORT_FROM = "ImportFrom(module='concurrent', names=[alias(name='interpreters')], level=0)"
LAYOUT = (tokenize.NL, tokenize.COMMENT, tokenize.INDENT, tokenize.DEDENT, tokenize.ENDMARKER)
SURROGATES = r'\\(u|U0000)[dD][89a-fA-F]'


def is_target(node):
    if isinstance(node, (ast.Tuple, ast.List)):
        return bool(node.elts) and all(map(is_target, node.elts))
    return isinstance(node, (ast.Name, ast.Subscript))


def is_literal(value):
    return value is None or isinstance(value, (str, bytes)) or isinstance(value, int) and value < 2**63


def is_comparison(node):
    by_identity = [it for sign, it in zip(node.ops, node.comparators) if isinstance(sign, (ast.Is, ast.IsNot))]
    return all(isinstance(it, ast.Constant) and (it.value is None or isinstance(it.value, bool)) for it in by_identity)


# what a node has to be by itself, beside those that are known
RULES = {
    ast.Constant: lambda it: is_literal(it.value),
    ast.Compare: is_comparison,
    ast.Subscript: lambda it: not isinstance(it.slice, ast.Slice),
    ast.Dict: lambda it: None not in it.keys,
    ast.keyword: lambda it: it.arg is not None,
    ast.Assign: lambda it: all(map(is_target, it.targets)),
    ast.AugAssign: lambda it: is_target(it.target),
    ast.For: lambda it: is_target(it.target),
    ast.Delete: lambda it: len(it.targets) == 1 and isinstance(it.targets[0], ast.Subscript),
    ast.Raise: lambda it: it.cause is None,
    ast.Import: lambda it: ast.dump(it) == IMPORT,
    ast.ImportFrom: lambda it: ast.dump(it) == IMPORT_FROM,
    ast.FunctionDef: lambda it: not (it.decorator_list or it.returns or it.type_params),
    ast.arguments: lambda it: not (it.posonlyargs or it.kwonlyargs or it.vararg or it.kwarg or it.defaults),
    ast.arg: lambda it: it.annotation is None,
}


def stands_well(node, in_function=False, in_loop=False, in_finally=False):
    """Whether all statements in a node stand where the profile allows them."""
    if isinstance(node, (ast.FunctionDef, ast.Import, ast.ImportFrom)) and in_function:
        return False
    if isinstance(node, ast.Global) and not in_function or isinstance(node, ast.Return) and in_finally:
        return False
    if isinstance(node, (ast.Break, ast.Continue)) and in_finally and not in_loop:
        return False
    if isinstance(node, ast.FunctionDef):
        in_function, in_loop, in_finally = True, False, False
    parts = [('body', in_loop or isinstance(node, (ast.For, ast.While)), in_finally), ('handlers', in_loop, in_finally),
             ('orelse', in_loop, in_finally), ('finalbody', False, True)]
    return all(stands_well(it, in_function, loop, final)
               for name, loop, final in parts for it in getattr(node, name, []))


def is_written_well(text):
    """Whether a literal has a prefix and escapes of the profile."""
    prefix = re.match('[A-Za-z]*', text)[0].lower()
    if 'r' in prefix:
        return prefix in ('r', 'br', 'rb')
    refused = r'\\[4-7][0-7][0-7]' + ('' if prefix == 'b' else rf'|\\N|{SURROGATES}')
    return prefix in ('', 'u', 'b') and not re.search(refused, text.replace('\\\\', ''))


def begins_item(before):
    """Whether a square bracket after this token begins an item, and no list."""
    if before.type == tokenize.NAME:
        return not keyword.iskeyword(before.string) or before.string in ('None', 'True', 'False')
    return before.type in (tokenize.STRING, tokenize.NUMBER) or before.string in (')', ']', '}')


def is_token(token, before, brackets, statement):
    """Whether a token may stand after this one, in these brackets, in a statement that begins so."""
    if token.type == tokenize.STRING:
        return is_written_well(token.string)
    if before.type == tokenize.NEWLINE and '\t' in token.line[:token.start[1]]:
        return False
    is_beside = before.type == tokenize.NUMBER and before.end == token.start
    if is_beside and (token.type == tokenize.NAME or token.string[:1] == '.'):
        return False
    return token.string != ',' or brackets[-1:] != ['item'] and (brackets or statement not in ('del', 'except'))


def are_tokens(tokens):
    brackets, statement = [], None
    before = tokenize.TokenInfo(tokenize.NEWLINE, '', (0, 0), (0, 0), '')
    for token in tokens:
        if before.type == tokenize.NEWLINE or before.string in (';', ':') and not brackets:
            statement = token.string
        if token.string in (')', ']', '}'):
            brackets.pop()
        if not is_token(token, before, brackets, statement):
            return False
        if token.string in ('(', '[', '{'):
            brackets.append('item' if token.string == '[' and begins_item(before) else token.string)
        before = token
    words = ' '.join('' if it.type == tokenize.STRING else it.string for it in tokens)
    return not re.search(r'\b(is (not )?|import )\(', words)


def is_beside_well(text, tokens):
    """Whether what stands beside literals and comments is ASCII, without form feeds and backslashes."""
    lines = text.split('\n')
    for token in reversed(tokens):
        if token.type in (tokenize.STRING, tokenize.COMMENT):
            (first, start), (last, end) = token.start, token.end
            lines[first - 1:last] = [lines[first - 1][:start] + lines[last - 1][end:]]
    return all(it.isascii() and not re.search(r'[\\\f\v]', it) for it in lines)


def is_within(text):
    """Whether a text that CPython reads is within the profile; None where that can't be told."""
    text = text.replace('\r\n', '\n').replace('\r', '\n')
    tree = ast.parse(text)
    try:
        tokens = list(tokenize.generate_tokens(io.StringIO(text).readline))
    except (tokenize.TokenError, SyntaxError):
        return None
    is_tree = all(RULES[type(it)](it) if type(it) in RULES else isinstance(it, KNOWN) for it in ast.walk(tree))
    return (is_tree and stands_well(tree) and are_tokens([it for it in tokens if it.type not in LAYOUT])
            and is_beside_well(text, tokens))
