# A closure that counts, called by its Proc.
def counter
  n = 0
  lambda { |by| n += by }
end

first = counter
second = counter
i = 0
while i < 1_500_000
  first.call(i)
  second.call(1) if i % 3 == 0
  i += 1
end
puts first.call(0) + second.call(0)
