# Counts the words that a fiber hands over one by one. A word that is too long is left out by an exception.
class TooLong < StandardError
  def initialize(word)
    super("#{word} is too long")
  end
end

class Tally
  include Enumerable

  def initialize(limit)
    @limit = limit
    @counts = Hash.new(0)
  end

  def add(word)
    raise TooLong.new(word) if word.size > @limit
    @counts[word] += 1
  end

  def each
    @counts.sort_by { |word, count| [-count, word] }.each { |pair| yield pair }
  end
end

words = Fiber.new do
  ["the cat saw the dog", "the ornithologist saw the cat"].each do |line|
    line.split.each { |word| Fiber.yield word }
  end
  nil
end

seen = 0
tally = Tally.new(10)
while word = words.resume
  begin
    tally.add(word)
  rescue TooLong => error
    puts "left out: #{error.message}"
  ensure
    seen += 1
  end
end

puts "#{seen} words"
tally.each { |word, count| puts "#{count} #{word}" }
p tally.map { |word, count| word }.first(2)
