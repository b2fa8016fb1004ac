print('lost')
