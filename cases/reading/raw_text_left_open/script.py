print(r'C:\')
