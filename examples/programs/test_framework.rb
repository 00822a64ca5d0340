# Tests as methods that a class makes of blocks, with assertions and a report.
class Suite
  class Fail < StandardError; end
  attr_reader :results
  class << self
    def test(name, &b) define_method("test_" + name.split.join("_")) { instance_body(&b) }; (@tests ||= []) << name end
    def tests; @tests || [] end
    def setup(&b) @setup = b end
    def get_setup; @setup end
  end
  def instance_body(&b) b.call(self) end
  def assert(c, m = "assertion failed") @n += 1; c or raise Fail, m end
  def eq(a, b) assert(a == b, "expected #{a.inspect}, got #{b.inspect}") end
  def raises(k = StandardError)
    yield
  rescue k => e
    @n += 1
    e
  else
    raise Fail, "expected #{k}"
  end
  def run
    @n, @results = 0, []
    self.class.tests.each do |t|
      r = begin
        self.class.get_setup.call(self) if self.class.get_setup
        send("test_" + t.split.join("_"))
        :ok
      rescue Fail => e
        "F: #{e.message}"
      rescue => e
        "E: #{e.class}: #{e.message}"
      ensure
        @teardowns = (@teardowns || 0) + 1
      end
      @results << [t, r]
    end
    self
  end
  def report
    @results.each { |t, r| puts "#{r == :ok ? "." : "x"} #{t}#{r == :ok ? "" : " -- #{r}"}" }
    puts "#{@results.count { |_, r| r == :ok }}/#{@results.length} ok, #{@n} assertions, #{@teardowns} teardowns"
  end
end
class MathSuite < Suite
  setup { |s| $stack = [] }
  test("add works") { |s| s.eq 4, 2 + 2 }
  test("fails") { |s| s.eq [1], [1, 2] }
  test("raises zero") { |s| s.eq "divided by 0", s.raises(ZeroDivisionError) { 1 / 0 }.message }
  test("no raise") { |s| s.raises { 1 } }
  test("wrong raise") { |s| s.raises(TypeError) { raise ArgumentError, "arg" } }
  test("error") { |s| raise KeyError, "lost" }
  test("setup ran") { |s| s.eq [], $stack; $stack << 1 }
  test("setup again") { |s| s.assert $stack.empty? }
end
MathSuite.new.run.report
p MathSuite.tests.length, Suite.tests, MathSuite.method_defined?(:test_add_works)
