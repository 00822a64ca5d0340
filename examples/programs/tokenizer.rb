# A tokenizer and a parser by precedence for sums, with variables and a printer of trees.
class Token
  attr_reader :kind, :text, :at

  def initialize(kind, text, at)
    @kind, @text, @at = kind, text, at
  end

  def is?(*texts)
    kind == :mark && texts.include?(text)
  end

  def inspect
    "#{kind}:#{text}"
  end
end

class Fault < StandardError
  attr_reader :at
  def initialize(what, at)
    super("#{what} at #{at}")
    @at = at
  end
end

class Tokenizer
  MARKS = %w[** == <= >= + - * / % ( ) = < > , ? :]
  SPACE = [" ", "\t", "\n"]

  def initialize(text)
    @text = text
    @at = 0
  end

  def digit?(c) c && c.between_bytes?("0", "9") end

  def name?(c)
    c and (c.between_bytes?("a", "z") || c.between_bytes?("A", "Z") || c == "_")
  end

  def each
    while @at < @text.size
      c = @text[@at]
      if SPACE.include?(c)
        @at += 1
        next
      end
      start = @at
      if digit?(c)
        @at += 1 while digit?(@text[@at])
        yield Token.new(:number, @text[start...@at], start)
      elsif name?(c)
        @at += 1 while name?(@text[@at]) or digit?(@text[@at])
        yield Token.new(:name, @text[start...@at], start)
      elsif c == "#"
        break
      else
        mark = MARKS.find { |m| @text[@at, m.size] == m }
        raise Fault.new("byte #{c.inspect}", @at) unless mark
        @at += mark.size
        yield Token.new(:mark, mark, start)
      end
    end
    yield Token.new(:end, "", @at)
  end

  def to_a
    list = []
    each { |token| list << token }
    list
  end
end

class String
  def between_bytes?(low, high)
    self >= low && self <= high
  end
end

class Parser
  LEVELS = [%w[== < > <= >=], %w[+ -], %w[* / %]]

  def initialize(text)
    @tokens = Tokenizer.new(text).to_a
    @next = 0
  end

  def peek; @tokens[@next]; end

  def take
    token = peek
    @next += 1
    token
  end

  def accept(*marks)
    take if peek.is?(*marks)
  end

  def expect(mark)
    accept(mark) || raise(Fault.new("no #{mark}", peek.at))
  end

  def parse
    tree = assignment
    raise Fault.new("more text", peek.at) unless peek.kind == :end
    tree
  end

  def assignment
    tree = choice
    return tree unless accept "="
    raise Fault.new("no name", 0) if tree[0] != :name
    [:set, tree[1], assignment]
  end

  def choice
    test = binary(0)
    return test if !accept("?")
    yes = choice
    expect ":"
    [:if, test, yes, choice]
  end

  def binary(level)
    return unary if level == LEVELS.size
    left = binary(level + 1)
    while mark = accept(*LEVELS[level])
      left = [mark.text.to_sym, left, binary(level + 1)]
    end
    left
  end

  def unary
    if accept("-") then [:neg, unary]
    else power end
  end

  def power
    base = primary
    accept("**") ? [:**, base, unary] : base
  end

  def primary
    token = take
    case token.kind
    when :number then [:number, token.text.to_i]
    when :name
      peek.is?("(") ? call(token.text) : [:name, token.text]
    else
      raise Fault.new("no value", token.at) unless token.is?("(")
      tree = assignment
      expect(")")
      tree
    end
  end

  def call(name)
    expect("(")
    list = []
    until accept(")")
      list << assignment
      accept(",") or peek.is?(")") or raise Fault.new("no comma", peek.at)
    end
    [:call, name, *list]
  end
end

class Evaluator
  attr_reader :names

  def initialize(names = {}) @names = names end

  def value(tree)
    kind, *parts = tree
    case kind
    when :number then parts.first
    when :name then names.fetch(parts[0]) { |name| raise Fault.new("unset #{name}", 0) }
    when :set
      name, inner = parts
      names[name] = value(inner)
    when :neg then -value(parts[0])
    when :if
      test, yes, no = parts
      value(test) ? value(yes) : value(no)
    when :call
      name, *rest = parts
      values = rest.map { |part| value part }
      case name
      when "max", "min", "sum" then values.send(name)
      else raise Fault.new("no function #{name}", 0)
      end
    else
      left, right = parts.map { |part| value(part) }
      left.send(kind, right)
    end
  end

  def show(tree)
    kind, *parts = tree
    return parts[0].to_s if kind == :number || kind == :name
    "(" + [kind, *parts].map { |part| part.is_a?(Array) ? show(part) : part.to_s }.join(" ") + ")"
  end
end

p Tokenizer.new("x1 = 2*(y+30) # rest").to_a
evaluator = Evaluator.new("ten" => 10)
[
  "1 + 2 * 3", "(1 + 2) * 3", "2 ** 3 ** 2", "-2 ** 2", "7 - 2 - 1", "a = b = 4", "a * b + ten % 3",
  "a == b ? max(a, 9, 3) : 0", "1 < 2 ? 2 < 1 ? 3 : 4 : 5", "sum(1, 2, (c = 3),)", "c / 2"
].each do |text|
  tree = Parser.new(text).parse
  puts "#{text}: #{evaluator.show(tree)} = #{evaluator.value(tree)}"
end
["1 +", "(1", "1 2", "3 $ 4", "f(1)", "zz", "1 = 2", "max(1 2)"].each do |text|
  begin
    puts evaluator.value(Parser.new(text).parse)
  rescue Fault => fault
    puts "#{text}: #{fault.message}#{fault.at > 0 ? " " * fault.at + "^" : ""}"
  end
end
p evaluator.names
