# Functions: parameters and locals are their own, and only `global` reaches a name of the script.
calls = 0


def gcd(a, b):
    global calls
    calls += 1
    if b == 0:
        return a
    return gcd(b, a % b)


def line(width, mark):
    if not width:
        return
    print(mark * width)


print(gcd(1071, 462), 'in', calls, 'calls')
line(20, '-')
print(line(0, '-'))

# a function is a value like any other
rule = line
rule(5, '=')
print(rule)


# a name that a function binds is local to it, so this one is not bound yet
def early():
    print(calls)
    calls = 1


early()
