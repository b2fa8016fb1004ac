raise ValueError('a\nb' + 'c' * 300)
