x = 'ab\xg'
