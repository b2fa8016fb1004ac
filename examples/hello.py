# The shortest script:  ./subpy serial examples/hello.py
print('Hello from interpreter 0')
