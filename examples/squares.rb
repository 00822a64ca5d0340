i = 0
while i < 10
  puts i * i
  i = i + 1
end
