print('grüße', '日本', '😀' * 2)
