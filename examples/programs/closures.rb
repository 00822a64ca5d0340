=begin
Blocks, procs and lambdas: counters, adders, pipelines, early exits and parameters of all shapes.
=end
def counter(start = 0, by = 1)
  count = start
  [-> { count += by }, lambda { count }, proc { |n| count = n }]
end

up, now, set = counter 5, 2
up.call; up.(); up[]
puts now.call
set.call(1)
puts up::call, now.()

def twice
  return :none unless block_given?
  [yield, yield(1), (yield 2, 3)]
end

p twice, twice { 0 }, twice { |a| a }, twice { |a, b| [a, b] }, twice { |*a| a }
p twice { |a, (b, *c), d = 4, *e, f| [a, b, c, d, e, f] }
p [[1, [2, 3, 4]], [5, [6]]].map { |a, (b, *c)| [a, b, c] }
p [[1, 2], [3]].map { |a,| a }, [[1, 2]].each { |a, b; c, d| c = a; d = b }
x = 10
[1, 2].each { |n; x| x = n }
[1, 2].each { || x += 1 }
p x

shapes = [->(a, b = 2, *c, d, &e) { }, -> { }, -> a { }, proc { |a| }, proc { |a, b| }, proc { |*a| }, lambda { |a, *| }]
p shapes.map { |f| [f.arity, f.lambda?] }
begin
  ->(a) { a }.call
rescue ArgumentError => e
  puts e.message
end

def find_first(list)
  list.each { |item| return item if yield(item) }
  nil
end
p find_first([1, 4, 6]) { |n| n.even? }, find_first([]) { true }

def exits
  result = [1, 2, 3, 4].each do |n|
    next if n == 1
    break n * 10, n if n == 3
  end
  lambda { return 1 }.call
  doubled = [1, 2].map { |n| next n, n if n > 1; n }
  return result, *doubled
end
p exits

compose = lambda do |*steps|
  ->(value) { steps.inject(value) { |v, step| step.call(v) } }
end
p compose.call(:succ.to_proc, ->(n) { n * 3 }, proc { |n| n - 1 }).call(4)
curry = -> a { -> b { -> c do [a, b, c] end } }
p curry.(1).(2)[3], curry[1][2].call(3)

def pass(*list, &block) list.map(&block) end
def options(first, rest = {}) [first, rest] end
p pass(1, 2) { |n| -n }, pass(3, 4, &:to_s), pass(*[5], *6..7, &-> n { n ** 2 })
p options(1), options(1, a: 2, :b => 3), (options 4, "c" => 5), options(*[1, { d: 1 }])
total = 0
pass 1, 2, 3 do |n|
  total += n
end.each do |n| total -= 1 end
p total

text = [3, 1, 2]
  .map { |n| n * 2 }
  .select { |n|
    n > 2
  }.
  sort
  .join("-")
puts text, 1 +
  2, (not true), (true && !false and not nil), [
    1, 2,
  ].size

n = 1
n += 9; n -= 2; n *= 6; n /= 5; n %= 7; n **= 5; n <<= 4; n >>= 1; n |= 3; n &= 0xfe; n ^= 5
p n
flag = nil
flag ||= n
flag &&= flag > 3
flag or puts "never"
flag and puts "flag"
n = 3 unless false
n -= 1 while n > 0
n += 1 until n >= 2
p n, (n > 1 ? n == 2 ? :two : :more : :less)
value = if n == 1 then "one"
        elsif n == 2
        then "two"
        else "many" end
other = unless n == 2 then 0 else 1 end
list = while true do break 7, 8 end
nothing = until true do end
p value, other, list, nothing, (1; 2), (), [nil.to_a, -n.abs, - n]

for @i, j in [[1, 2], [3, 4]] do p @i * j end
for k in 1...3
  next if k == 1
  p k
end
p j, k, (1..9).step(4) { |s| print s, " " }, 5.downto(4) { }, 1.step(7, 3) { |s| print s }

attempts = 0
begin
  attempts += 1
  raise IndexError if attempts < 3
  raise TypeError, "third"
rescue IndexError
  retry
rescue TypeError, NameError => $error
  p attempts, $error.message, $error.class
else p :never
ensure p :always
end
got = Integer("x") rescue -1
got += (raise "y" rescue 2)
p got, (raise "z" rescue "rescued")
wrapped = begin Integer("12") rescue 0 end
p wrapped
inner = [1].map do |m|
  m / 0
rescue ZeroDivisionError
  :zero
else
  :never
ensure
  puts "block ends"
end
p inner

p defined?(x), defined? @i, defined?(@none), defined?($error), defined?(String), defined?(Nope), defined?(puts)
p defined?(nope), (defined? x = 1), defined?(self), defined?(nil).nil?, defined?(1 + 1), defined? String.new
def checks; [defined?(yield), block_given?, defined?(super)] end
p checks, checks { }
alias verify checks
undef checks
p verify[0], defined?(checks)

def spread first, (second, *others), by = 10, *rest, last, &change
  change ||= ->(n) do
    Integer(n) + by
  rescue TypeError
    0
  end
  yield first, *others, *rest if block_given? and not last
  rest.any? or return [second, last].map(&change)
  last && (return change.call last)
  :end
end
p spread(1, [2, 3], 4), (spread 1, [2, nil], 5, nil), spread(1, [2, 3, 4], 5, 6, false) { |*all| p all }
p spread(1, [2], 20, 3, 4,)
size = sum = 0
table, hash = [[1, 2], [3, 4]], {}
for hash[:key], sum in table do size += sum end
size += [sum, 1].index 4 if table.first
hash[:size] ||= [size].first 1
puts "not there" if !hash.key? :missing and not table.include? [5]
p hash, (hash.key? :key and sum)
Limit ||= 4
Limit ||= 5
$calls ||= 0
@calls &&= 1
kind = [3, 9, "x", [1], 7].map do |n|
  case n
  when ->(m) { m == 3 } then :three
  when Limit..8, 100 then :middle
  when String, Array
    next :other unless n == [1]
    :one
  else :none
  end
end
p kind, Limit, $calls, @calls
puts <<"ONE", <<-'TWO'
#{kind.size} kinds
ONE
  #{not read}
  TWO
p loop { raise StopIteration }, [1, [2, [3, nil]]].flatten.compact
p %w[a b].each_with_object([]) { |s, memo| memo << s * 2 }, %i(a b).map(&:to_proc).map { |f| f.lambda? }
p [*1..3, *"a".."c", -1], (1..4).each_cons(2) { |pair| print pair }
p((1..3).reduce(:*), [0x1f, 0b101, 0o17, 017, 1_0], ?x, :"a b", :'c', :+, :[]=, :a?, :b!, :c=, :"d#{1}")
p({ 1 => :a, nil => [], "s" => { t: true } }, [1, 2, 3].values_at(0, -1), !!1, 7.then { |s| s + 1 })
puts 5.clamp(1, 3), 2 <=> 3, 7.divmod(-2).inspect, -7 / 2, -7 % 3, 2 ** 10, ~0, 6 & 3 | 8 ^ 1, 1 << 3 >> 1
exit 0 if $error && !@none
puts "never reached"
__END__
p nothing of this is read (
