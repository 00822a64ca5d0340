# Primes by a sieve, by division and by generators that never end.
class Primes
  include Enumerable

  def initialize(limit)
    @limit = limit
    @sieve = Array.new(limit + 1, true)
    @sieve[0] = @sieve[1] = false
    n = 2
    while n * n <= limit do
      (n * n).step(limit, n) { |multiple| @sieve[multiple] = false } if @sieve[n]
      n += 1
    end
  end

  def each
    0.upto(@limit) { |n| yield n if @sieve[n] }
    self
  end

  def include?(n)
    n >= 0 && n <= @limit ? @sieve[n] : prime?(n)
  end

  def prime?(n)
    return false if n < 2
    each do |d|
      break if d * d > n
      return false if n % d == 0
    end
    true
  end
end

module Numbers
  def self.gcd(a, b)
    b.zero? ? a : gcd(b, a % b)
  end

  def self.lcm(a, b) a / gcd(a, b) * b end

  def self.power(base, exponent, modulus)
    result = 1
    until exponent.zero?
      result = result * base % modulus if exponent.odd?
      base = base * base % modulus
      exponent >>= 1
    end
    result
  end

  def Numbers.factors(n)
    list = []
    d = 2
    while n > 1
      while n % d == 0
        list << d
        n /= d
      end
      d += d == 2 ? 1 : 2
      d = n if d * d > n && n > 1
    end
    list
  end

  class << self
    def perfect?(n)
      sum = 0
      for d in 1..n / 2
        sum += d if n % d == 0
      end
      sum == n
    end
  end
end

primes = Primes.new 60
puts primes.to_a.join(" ")
puts primes.count, primes.sum, primes.include?(59), primes.include?(3599), primes.include?(3607)
primes.each_cons(2) { |a, b| print "#{a}/#{b} " if b - a == 2 }
puts
p primes.each_slice(6) { |slice| break slice if slice.last > 30 }
p primes.take_while { |n| n < 20 }, primes.reject { |n| n < 50 }

[1, 12, 97, 360, 1001, 65536].each do |n|
  parts = Numbers.factors(n).tally.map { |f, k| k > 1 ? "#{f}^#{k}" : f.to_s }
  puts "#{n} = #{parts.empty? ? 1 : parts.join(' * ')}"
end
puts Numbers.gcd(48, 180), Numbers::lcm(21, 6), Numbers.power(3, 200, 13)
p (1..500).select { |n| Numbers.perfect? n }

endless = Enumerator.new do |out|
  found = []
  n = 2
  loop do
    if found.none? { |d| n % d == 0 }
      found << n
      out << n
    end
    n += 1
  end
end
p Array.new(8) { endless.next }
p endless.peek
endless.rewind
p endless.next

fibonacci = Enumerator.new { |out|
  a, b = 0, 1
  while true
    out.yield a
    a, b = b, a + b
  end
}
line = []
line << fibonacci.next until line.size == 15
puts line.join(",")

collatz = lambda do |n|
  Enumerator.new do |out|
    out << n
    out << (n = n.even? ? n / 2 : 3 * n + 1) while n != 1
    :ended
  end
end
path = collatz.call(6)
steps = []
ended = loop { steps << path.next }
p steps, ended
p collatz[27].to_enum(:each).class

pairs = Enumerator.new { |out| out << 1 << 2; out.yield 3, 4 }
pairs.each { |x, y| p [x, y] }
begin
  4.times { p pairs.next }
rescue StopIteration => stop
  puts stop.message
end

spiral = { 2 => :even, 3 => :odd, default: nil }
primes.first(3).each { |n| puts spiral[n] || "none" }
checks = 0
begin
  checks += 1
end while !primes.include?(checks * checks + checks + 41) || checks < 10
puts checks
begin checks -= 3 end until checks < 0
puts checks
