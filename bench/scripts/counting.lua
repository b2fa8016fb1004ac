n = 0
while n < 5000000 do
    n = n + 1
end
print(n)
