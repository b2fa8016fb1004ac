x = y / 2
