def f(k):
    try:
        raise k('x')
    except IndexError:
        return 'index'
    except LookupError:
        return 'lookup'
    except ArithmeticError:
        return 'arithmetic'
    except Exception:
        return 'exception'
    except:
        return 'bare'
for k in 'abc':
    print(k)
print(f(IndexError), f(KeyError), f(OverflowError), f(UnboundLocalError), f(BaseException))
