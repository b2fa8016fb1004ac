# Each statement at work: a small desk that takes orders, counts them, and closes properly whatever comes.

# assignment, plain and augmented
taken = 0
refused = 0
taken += 0


# def, parameters, return, global
def price(item):
    # if, elif, else, raise
    if item == 'tea':
        return 3
    elif item == 'coffee':
        return 4
    elif item == 'water':
        return
    else:
        raise LookupError('no ' + item + ' today')


def order(item, count):
    global taken, refused
    # try, except with a name, else, finally
    try:
        each = price(item)
        total = each * count
    except LookupError as problem:
        refused += 1
        print('sorry:', problem)
    except TypeError:
        print(item, 'is free')
        return 0
    else:
        taken += 1
        return total
    finally:
        print('-', item)


# for over a range, with continue, break and else
for count in range(5):
    if count == 0:
        continue
    print(count, 'tea:', order('tea', count))
    if taken == 2:
        break
else:
    print('this does not run: the loop was left by break')

# while with else, and pass
left = 2
while left:
    left -= 1
    if left:
        pass
    order('cake', left)
else:
    print('out of cake')

print('water:', order('water', 1))

# for over a text
for letter in 'ok':
    print(letter, repr(letter))

# a finally that an exception enters, and raise without a value
try:
    try:
        order('tea', 'many')
        1 // 0
    finally:
        print('desk closed:', taken, 'taken,', refused, 'refused')
except ArithmeticError as problem:
    try:
        raise
    except ZeroDivisionError:
        print('seen again:', repr(problem))
