# A rule: what a basket costs, with a tenth off from 100 on.
prices = {'tea': 35, 'cake': 80}
basket = ['tea', 'cake', 'tea']
total = 0
for name in basket:
    total += prices[name]
if total >= 100:
    total -= total // 10
result = ('total', total)
