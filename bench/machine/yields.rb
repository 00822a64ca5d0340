# A method that yields, with one value and with two.
def each_below(n)
  i = 0
  while i < n
    yield i
    i += 1
  end
end

def pairs(n)
  i = 0
  while i < n
    yield i, n - i
    i += 1
  end
end

sum = 0
each_below(2_000_000) { |i| sum += i }
pairs(1_000_000) { |a, b| sum += a - 2 * b }
puts sum
