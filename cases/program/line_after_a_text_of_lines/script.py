text = '''one
two'''
other = 'three\
four'
break
