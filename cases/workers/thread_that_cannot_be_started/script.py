print('never reported')
