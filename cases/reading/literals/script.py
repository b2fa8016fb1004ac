print(0xff, 0X_1F, 0o17, 0B1_01, 1_000_000, 00_0)
print(0x7fff_ffff_ffff_ffff - 9223372036854775807)
print('tab\there', "bell\x07", '\101\60\0601', '\u20ac\U0001F600', '\q\8')
print(r'C:\new\'s', R"\x", u'plain', U"too" r'\n')
print('''it's "so"
over lines''', """\"""\"""", 'one \
line')
print('' '''''' "", "a" 'b' """c""")
