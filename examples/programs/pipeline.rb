# Stages that hand items on, each as a fiber of its own; enumerators over endless sources; and who ends what.
class Stage
  def initialize(source = nil, &work)
    @source = source
    @work = work
    @fiber = Fiber.new { run }
  end

  def |(other)
    other.reads(self)
  end

  def reads(source)
    @source = source
    self
  end

  def take
    @fiber.alive? ? @fiber.resume : nil
  end

  def each
    while item = take
      yield item
    end
  end

  private

  def run
    if @source
      while item = @source.take
        @work.call(item) { |made| Fiber.yield made }
      end
    else
      @work.call { |made| Fiber.yield made }
    end
    nil
  end
end

numbers = Stage.new { |&out| 1.upto(12) { |n| out.call(n) } }
odd = Stage.new { |n, &out| out.call(n) if n.odd? }
pairs = Stage.new { |n, &out| 2.times { |k| out.call([n, k]) } }
(numbers | odd | pairs).each { |n, k| print n, ":", k, " " }
puts

# An enumerator over a source without an end, and two over one object.
fibonacci = Enumerator.new do |out|
  a, b = 0, 1
  loop do
    out << a
    a, b = b, a + b
  end
end
first = []
first << fibonacci.next while first.size < 10
p first, fibonacci.peek
fibonacci.rewind
p fibonacci.next

letters = %w[a b c]
left, right = letters.to_enum, letters.to_enum(:reverse_each)
row = []
loop { row << left.next + right.next }
p row

# The value with which a source ends is the result of its StopIteration.
ended = Enumerator.new { |out| out << 1; :end }
p ended.next
begin
  ended.next
rescue StopIteration => stop
  puts "#{stop.message}: #{stop.result.inspect}"
end

# An exception leaves a fiber at its resume, and its ensure parts run on the way.
failing = Fiber.new do
  begin
    Fiber.yield :ready
    raise ArgumentError, "stopped inside"
  ensure
    puts "left"
  end
end
p failing.resume
begin
  failing.resume
rescue ArgumentError => error
  puts "#{error.class}: #{error.message}"
end
p failing.alive?

# Values go in with a resume and come out with a yield.
sum = Fiber.new do |item|
  total = 0
  while item
    total += item
    item = Fiber.yield(total)
  end
  "sum #{total}"
end
p [3, 4, 5, nil].map { |item| sum.resume(item) }

# A variable of a fiber that has ended lives in the block that it left behind.
counter = nil
Fiber.new { n = 0; counter = lambda { n += 1 } }.resume
counter.call
p counter.call
