print('one interpreter of 64')
