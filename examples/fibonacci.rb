a = 0; b = 1
n = 0
while n < 50
  puts a
  c = a + b
  a = b; b = c
  n = n + 1
end
