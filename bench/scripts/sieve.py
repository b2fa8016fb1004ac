n = 200000
prime = [True] * (n + 1)
i = 2
while i * i <= n:
    if prime[i]:
        j = i * i
        while j <= n:
            prime[j] = False
            j += i
    i += 1
count = 0
for is_prime in prime:
    if is_prime:
        count += 1
print(count - 2)
