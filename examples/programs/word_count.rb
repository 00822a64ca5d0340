# Counts the words of a text and prints them by number and by name.
TEXT = <<EOS
The quick brown fox jumps over the lazy dog.
The dog sleeps; the fox runs on!
A fox, a dog, and a quiet river. The end.
EOS

class WordCount
  include Enumerable
  attr_reader :lines, :total

  def initialize(stop = %w[a and on])
    @stop = stop
    @counts = Hash.new(0)
    @lines = @total = 0
  end

  def feed(text)
    text.each_line do |line|
      @lines += 1
      words_in(line.chomp) { |word| add word }
    end
    self
  end

  def add(word)
    @total += 1
    return if @stop.include? word
    @counts[word] += 1
  end

  def each
    @counts.each { |word, count| yield word, count }
  end

  def [](word)
    @counts[word]
  end

  def top(n = 3)
    sort_by { |word, count| word }.sort_by { |word, count| -count * 1000 + word.ord }.first(n)
  end

  private

  def words_in(line)
    word = ""
    line.each_char do |char|
      if ("a".."z").include?(char.downcase)
        word << char.downcase
      elsif !word.empty?
        yield word
        word = ""
      end
    end
    yield word unless word.empty?
  end
end

def bar(size, mark = "*")
  mark * size
end

source = ""
while line = gets
  source << line
end
source = TEXT if source.empty?

counter = WordCount.new.feed(source)
puts "lines: #{counter.lines}, words: #{counter.total}"
puts "different: #{counter.count}"

width = counter.map { |word, _| word.length }.max
counter.sort_by { |word, _| word }.each do |word, count|
  puts "#{word.ljust(width)} #{count.to_s.rjust(3)} #{bar(count)}"
end

puts "-" * (width + 6)
counter.top.each_with_index do |(word, count), place|
  puts "#{place + 1}. #{word} (#{count})"
end

puts "fox: #{counter["fox"]}, cat: #{counter["cat"]}"

by_length = counter.map { |word, _| word }.group_by { |word| word.size }
by_length.keys.sort.each do |size|
  print size, ": ", by_length[size].sort.join(" "), "\n"
end

long, short = counter.map { |w, _| w }.partition { |w| w.size > 4 }
puts "long #{long.size}, short #{short.size}"

longest = counter.max_by { |word, _| word.size }
puts "longest: #{longest.first}"

initials = counter.map { |word, _| word[0] }.tally
puts initials.sort_by { |letter, _| letter }.map { |letter, n| letter + n.to_s }.join(",")

once = counter.select { |_, count| count == 1 }.map { |word, _| word }
puts "once: " + once.sort.take(4).join(", ") + (once.size > 4 ? ", .." : "")
