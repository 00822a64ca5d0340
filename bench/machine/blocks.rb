# Blocks within blocks that read and set variables of those around them.
sum = 0
100.times do |a|
  100.times do |b|
    200.times { |c| sum += a * b - c }
  end
end
puts sum
