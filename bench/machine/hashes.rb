# A Hash with Integers and one with Strings as keys.
counts = {}
i = 0
while i < 600_000
  key = i * 7_919 % 10_007
  counts[key] = (counts[key] || 0) + 1
  i += 1
end
puts counts.length, counts.values.inject(0) { |sum, n| sum + n * n }

words = {}
i = 0
while i < 300_000
  word = "key" + (i % 5_003).to_s
  words[word] = i unless words.key?(word) && i % 2 == 0
  i += 1
end
sum = 0
words.each { |word, last| sum += word.length * last }
puts words.length, sum
