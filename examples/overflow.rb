x = 1
while true
  puts x
  x = x * 1000
end
