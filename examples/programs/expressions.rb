# A language of expressions: tokens come from an enumerator with one look ahead, a parser by precedences, and an
# evaluator whose functions are lambdas over scopes.
class Lexer
  include Enumerable
  Token = Class.new
  class Token
    attr_reader :type, :val, :pos
    def initialize(t, v, p) @type, @val, @pos = t, v, p end
    def inspect; "#{type}(#{val})" end
    def is?(v) val == v end
  end
  class Error < StandardError; def initialize(c, i) super("bad char #{c.inspect} at #{i}") end end
  DIGITS = "0123456789"
  ALPHA = "abcdefghijklmnopqrstuvwxyz_"
  def initialize(src) @src = src end
  def each
    return to_enum unless block_given?
    i = 0
    while i < @src.length
      c = @src[i]
      case
      when " \n\t".include?(c) then i += 1
      when DIGITS.include?(c)
        j = i
        j += 1 while j < @src.length && DIGITS.include?(@src[j])
        yield Token.new(:num, @src[i...j].to_i, i)
        i = j
      when ALPHA.include?(c)
        j = i
        j += 1 while j < @src.length && (ALPHA + DIGITS).include?(@src[j])
        w = @src[i...j]
        yield Token.new(%w[let in fn if then else].include?(w) ? :kw : :id, w, i)
        i = j
      when "+-*/%()=<>,^!".include?(c)
        two = @src[i, 2]
        if %w[== <= >= => !=].include?(two) then yield Token.new(:op, two, i); i += 2
        else yield Token.new(:op, c, i); i += 1 end
      else raise Error.new(c, i)
      end
    end
    yield Token.new(:eof, nil, i)
  end
end
class Parser
  class Error < StandardError; end
  PREC = {
    "==" => 1, "!=" => 1, "<" => 2, ">" => 2, "<=" => 2, ">=" => 2,
    "+" => 3, "-" => 3, "*" => 4, "/" => 4, "%" => 4, "^" => 6,
  }
  RIGHT = ["^"]
  def initialize(src) @e = Lexer.new(src).each end
  def tok; @e.peek end
  def adv; @e.next end
  def expect(v) t = adv; raise Error, "expected #{v} got #{t.inspect} at #{t.pos}" unless t.is?(v); t end
  def parse; r = expr; raise Error, "trailing #{tok.inspect}" unless tok.type == :eof; r end
  def expr(min = 0)
    l = unary
    while tok.type == :op && (pr = PREC[tok.val]) && pr >= min
      op = adv.val
      l = [op.to_sym, l, expr(RIGHT.include?(op) ? pr : pr + 1)]
    end
    l
  end
  def unary
    if tok.is?("-") then adv; [:neg, expr(5)]
    elsif tok.is?("!") then adv; [:not, expr(5)]
    else call(atom) end
  end
  def call(f)
    while tok.is?("(")
      adv
      args = []
      until tok.is?(")")
        args << expr
        adv if tok.is?(",")
      end
      adv
      f = [:call, f, *args]
    end
    f
  end
  def atom
    t = adv
    case t.type
    when :num then t.val
    when :id then t.val.to_sym
    when :op
      raise Error, "unexpected #{t.inspect}" unless t.is?("(")
      r = expr
      expect(")")
      r
    when :kw
      case t.val
      when "let" then n = adv.val; expect("="); v = expr; expect("in"); [:let, n.to_sym, v, expr]
      when "fn"
        expect("(")
        ps = []
        until tok.is?(")") do ps << adv.val.to_sym; adv if tok.is?(",") end
        adv
        expect("=>")
        [:fn, ps, expr]
      when "if" then c = expr; expect("then"); a = expr; expect("else"); [:if, c, a, expr]
      else raise Error, "bad keyword #{t.val}"
      end
    else raise Error, "unexpected #{t.inspect}"
    end
  end
end
class Env
  def initialize(up = nil, h = {}) @up, @h = up, h end
  def [](k) @h.fetch(k) { @up ? @up[k] : raise(KeyError, "unbound #{k}") } end
  def []=(k, v) @h[k] = v end
end
def ev(x, env)
  case x
  when Integer then x
  when Symbol then env[x]
  when Array
    op, *r = x
    case op
    when :neg then -ev(r[0], env)
    when :not then !ev(r[0], env)
    when :let then e = Env.new(env); e[r[0]] = nil; e[r[0]] = ev(r[1], e); ev(r[2], e)
    when :fn
      ps, body = r
      ->(*as) do
        raise ArgumentError, "arity #{as.length} for #{ps.length}" if as.length != ps.length
        ev(body, Env.new(env, ps.each_with_object({}) { |n, h| h[n] = as[h.size] }))
      end
    when :if then ev(ev(r[0], env) ? r[1] : r[2], env)
    when :call then f = ev(r[0], env); f.call(*r[1..-1].map { |q| ev(q, env) })
    when :^ then ev(r[0], env) ** ev(r[1], env)
    else a, b = r.map { |q| ev(q, env) }; a.send(op, b)
    end
  end
end
G = Env.new(nil, {:max => ->(a, b) { a > b ? a : b }, :print => ->(*a) { puts a.join(","); a.last }, :yes => true})
[
  "1 + 2 * 3", "2 ^ 3 ^ 2", "-2 ^ 2", "(1 + 2) * 3 - 4 / 2 % 3", "let x = 5 in x * x",
  "let f = fn(n) => if n < 2 then n else f(n - 1) + f(n - 2) in f(15)", "(fn(a, b) => a * b)(6, 7)",
  "let k = fn(x) => fn(y) => x + y in k(3)(4)", "max(3, max(9, 2))", "print(1, 2, 3) + 1",
  "if !(1 == 2) then 10 else 20", "1 +", "foo", "1 $ 2", "(1", "let f = fn(a) => a in f(1, 2)", "1 / 0", "1 2",
  "then", "yes", "2 >= 2 == yes",
].each do |s|
  begin
    t = Parser.new(s).parse
    puts "#{s} => #{t.inspect} => #{ev(t, G).inspect}"
  rescue Parser::Error, Lexer::Error => e
    puts "#{s} !! #{e.class}: #{e.message}"
  rescue KeyError, ArgumentError, ZeroDivisionError => e
    puts "#{s} ?? #{e.class} #{e.message}"
  end
end
p Lexer.new("a1 == 2").to_a, Lexer.new("x").map(&:type), Lexer.new("1 2 3").select { |t| t.type == :num }.map(&:val).sum
