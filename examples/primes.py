# The primes below 50.
count = 0
n = 2
while n < 50:
    divisor = 2
    while divisor * divisor <= n and n % divisor:
        divisor += 1
    if divisor * divisor > n:
        print(n)
        count += 1
    n += 1
print(count, 'primes below', n)
