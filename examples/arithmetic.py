# Integers have 64 bits. What goes past them is an exception, never a wrong number.
seconds = 100000
print('seconds:', seconds)
print('hours:  ', seconds // 3600)
print('minutes:', seconds % 3600 // 60)
print('left:   ', seconds % 60)

# '//' rounds down, and the remainder has the sign of the divisor
print(-7 // 2, -7 % 2, 7 // -2, 7 % -2)

# '**' binds tighter than a sign on its left, and groups from the right
print(-2 ** 2, (-2) ** 2, 2 ** 3 ** 2)

greatest = 2 ** 62 - 1 + 2 ** 62
print('greatest:', greatest)
print('and one more:', greatest + 1)
print('this line is not reached')
