from concurrent import interpreters
i = interpreters.create()
i.exec("""
def f(n):
    return 1 // n
print('ready')
""")
for text in ["x = 1\nf(x)\ny", "print(2)\nf(0)"]:
    try:
        i.exec(text)
    except interpreters.ExecutionFailed as e:
        print(e)
