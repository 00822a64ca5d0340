# A loop of 30,000,000 additions.
sum = 0
n = 30_000_000
while n > 0
  sum = sum + n
  n -= 1
end
puts sum
