n = 27
steps = 0
while n > 1
  half = 0
  while half * 2 < n
    half = half + 1
  end
  if half * 2 == n
    n = half
  else
    n = n * 3 + 1
  end
  steps = steps + 1
end
puts steps
