# A calculator of reverse Polish notation with variables, words of its own and errors.
class Calculator
  class Error < StandardError; end
  class Underflow < Error; end
  class Unknown < Error
    attr_reader :word

    def initialize(word)
      super "unknown word #{word}"
      @word = word
    end
  end

  BINARY = {
    "+" => lambda { |a, b| a + b },
    "-" => lambda { |a, b| a - b },
    "*" => ->(a, b) { a * b },
    "/" => -> a, b { a / b },
    "%" => proc { |a, b| a % b },
    "**" => proc do |a, b| a ** b end,
    "max" => lambda do |a, b|
      a > b ? a : b
    end,
    "<<" => ->(a, b) { a << b },
  }

  UNARY = {
    "neg" => :-@.to_proc,
    "abs" => :abs.to_proc,
    "inc" => -> x { x.succ },
    "sq" => -> x do x * x end
  }

  attr_reader :stack

  def initialize(&report)
    @stack = []
    @words = {}
    @store = { pi3: 3141 }
    @report = report
  end

  def run(line)
    tokens = line.split
    return define(tokens[1], tokens[2..-1]) if tokens[0] == ":"
    tokens.each { |token| step token }
    @report.call(line, stack.last) if @report
    stack.last
  end

  def define(name, body)
    @words[name] = body
    nil
  end

  def step(token)
    case
    when BINARY.key?(token)
      b, a = pop, pop
      push BINARY[token].call(a, b)
    when UNARY.has_key?(token) then push UNARY[token].(pop)
    when @words[token]
      @words[token].each { |inner| step(inner) }
    when token.start_with?("=")
      @store[token[1..-1].to_sym] = stack.last
    when token[0] == "$"
      key = token[1, 10].to_sym
      push @store.fetch(key) { raise Unknown, token }
    else
      special(token) || push(number(token))
    end
  end

  def number(token)
    Integer(token)
  rescue ArgumentError
    raise Unknown.new(token)
  end

  def special(token)
    case token.to_sym
    when :dup then push(stack.last)
    when :drop then pop
    when :swap
      a, b = pop, pop
      push(a); push(b)
    when :clear; stack.clear; true
    else false
    end
  end

  def push(value)
    stack.push value
    true
  end

  def pop
    raise Underflow, "stack is empty" if stack.empty?
    stack.pop
  end
end

calculator = Calculator.new { |line, value| puts "#{line} => #{value.inspect}" }

lines = [
  "1 2 +",
  "3 *",
  "=nine clear",
  "$nine neg abs inc",
  "2 10 ** swap -",
  ": twice dup +",
  "21 twice",
  "7 2 / 7 2 % max",
  "1 3 << sq",
  "-7 2 /",
  "$pi3 1000 /"
]
lines.each do |line|
  calculator.run line
end

["1 +", "clear +", "5 foo", "1 0 /", "$x", "3 bar"].each do |line|
  begin
    calculator.run(line)
  rescue Calculator::Unknown => e
    puts "#{e.message} (#{e.word.length})"
  rescue Calculator::Error => e
    puts "#{e.class}: #{e.message}"
  rescue ZeroDivisionError, ArgumentError, TypeError => e
    puts "fault: #{e.class}"
  end
end

p calculator.stack.size
tries = 0
begin
  tries += 1
  calculator.run("clear " + "1 " * tries + "+ +")
rescue Calculator::Underflow
  retry if tries < 5
  puts "gave up"
else
  puts "after #{tries} tries"
ensure
  calculator.stack.clear
end
value = calculator.run("nonsense") rescue "no value"
puts value
