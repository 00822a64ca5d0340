# A small Lisp: a reader, an evaluator with closures and a printer.
module Lisp
  class SyntaxFault < StandardError
  end

  Unbound = Class.new(StandardError)

  class Scope
    def initialize(outer = nil, names = [], values = [])
      @outer = outer
      @here = {}
      rest = names.index(:"&")
      if rest
        @here[names[rest + 1]] = values[rest..-1]
        names = names[0...rest]
      end
      names.each_with_index { |name, i| @here[name] = values[i] }
    end

    def find(name)
      return @here[name] if @here.key?(name)
      raise Unbound, "no value for #{name}" if @outer.nil?
      @outer.find(name)
    end

    def set(name, value)
      @here[name] = value
    end
  end

  class Reader
    def initialize(text)
      @tokens = text.gsub("(", " ( ").gsub(")", " ) ").gsub("'", " ' ").split
    end

    def each
      yield form until @tokens.empty?
    end

    def form
      token = @tokens.shift
      case token
      when nil
        raise SyntaxFault, "text ends early"
      when "("
        list = []
        list << form while @tokens.first != ")" && !@tokens.empty?
        raise SyntaxFault, "no closing" unless @tokens.shift
        list
      when ")" then raise SyntaxFault, "stray closing"
      when "'" then [:quote, form]
      when "#t" then true
      when "#f" then false
      else atom(token)
      end
    end

    def atom(token)
      Integer(token) rescue token.to_sym
    end
  end

  PLAIN = {
    :+ => -> *n { n.inject(0) { |a, b| a + b } },
    :* => lambda { |*n| n.inject(1, :*) },
    :- => ->(a, *rest) { rest.empty? ? -a : rest.inject(a) { |x, y| x - y } },
    :"=" => ->(a, b) { a == b },
    :< => ->(a, b) { a < b },
    :list => -> *items { items },
    :car => -> list { list[0] },
    :cdr => -> list { list[1..-1] },
    :cons => ->(a, list) { [a] + list },
    :null? => ->(list) { list == [] },
    :mod => ->(a, b) { a % b }
  }

  class << self
    attr_accessor :depth

    def fresh
      scope = Scope.new
      PLAIN.each_pair { |name, body| scope.set(name, body) }
      scope
    end

    def run(text, scope = fresh)
      result = nil
      Reader.new(text).each { |form| result = evaluate(form, scope) }
      result
    end

    def evaluate(form, scope)
      self.depth = (depth || 0) + 1
      case form
      when Symbol then scope.find(form)
      when Array
        return [] if form.empty?
        special(form, scope)
      else form
      end
    ensure
      self.depth -= 1
    end

    def special(form, scope)
      head, *tail = form
      case head
      when :quote then tail[0]
      when :if
        test, yes, no = tail
        if evaluate(test, scope) then evaluate(yes, scope)
        elsif no then evaluate(no, scope)
        end
      when :define
        target, *body = tail
        if target.is_a?(Array)
          name, *names = target
          scope.set name, closure(names, body, scope)
        else
          scope.set(target, evaluate(body.first, scope))
        end
        nil
      when :lambda
        closure(tail[0], tail[1..-1], scope)
      when :let
        names, values = tail[0].transpose
        inner = Scope.new(scope, names, values.map { |v| evaluate(v, scope) })
        tail[1..-1].map { |part| evaluate(part, inner) }.last
      when :and
        tail.all? { |part| evaluate(part, scope) }
      when :or
        tail.any? { |part| evaluate(part, scope) }
      else
        function, *arguments = form.map { |part| evaluate(part, scope) }
        function.call(*arguments)
      end
    end

    def closure(names, body, scope)
      lambda do |*values|
        inner = Scope.new(scope, names, values)
        body.map { |part| evaluate(part, inner) }.last
      end
    end

    def show(value)
      case value
      when Array then "(" + value.map { |item| show item }.join(" ") + ")"
      when true then "#t"
      when false, nil then value.nil? ? "nil" : "#f"
      when Proc then "#<procedure>"
      else value.to_s
      end
    end
  end
end

scope = Lisp.fresh
program = <<'END'
(define (fact n) (if (< n 2) 1 (* n (fact (- n 1)))))
(define (fib n) (if (< n 2) n (+ (fib (- n 1)) (fib (- n 2)))))
(define (map f l) (if (null? l) '() (cons (f (car l)) (map f (cdr l)))))
(define (filter f l)
  (if (null? l) '()
    (if (f (car l)) (cons (car l) (filter f (cdr l))) (filter f (cdr l)))))
(define (range a b) (if (= a b) '() (cons a (range (+ a 1) b))))
(define (adder n) (lambda (x) (+ x n)))
(define (size l) (if (null? l) 0 (+ 1 (size (cdr l)))))
(define (count & all) (size all))
END
Lisp.run(program, scope)

%w{(fact\ 10) (fib\ 12) car (quote\ (a\ b\ (c)))}.each do |text|
  puts "#{text} is #{Lisp.show(Lisp.run(text, scope))}"
end
[
  "(map (adder 10) (range 0 5))",
  "(filter (lambda (x) (= 0 (mod x 3))) (range 1 20))",
  "(let ((x 3) (y 4)) (* x y) (+ (* x x) (* y y)))",
  "(and #t (< 1 2))", "(or #f (< 2 1))",
  "(list 1 'two '(3 #t) (- 4))",
  "(count 7 8 9)",
  "(if #f 1)"
].each { |text| puts Lisp.show(Lisp.run(text, scope)) }

["(fact", ")", "(undefined 1)", "(car 1 2)"].each do |text|
  begin
    Lisp.run text, scope
  rescue Lisp::SyntaxFault, Lisp::Unbound => fault
    puts "#{fault.class}: #{fault.message}"
  rescue ArgumentError => fault
    puts fault.message
  end
end
puts Lisp.depth
