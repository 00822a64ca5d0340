# Exits out of blocks, lambdas and procs, by way of methods, core methods, fibers and ensure parts.

# Writes the number of a case and what its block gives or raises.
def t(n)
  r = yield
  print n, " "
  p r
rescue StandardError => e
  puts "#{n} #{e.class}"
end

class K
  define_method(:m1) { break 5 }
  define_method(:m2) { |x| return x if x > 1; next 3 }
  define_method(:m3) { |x, &b| [1, 2].each { |q| return [:r, q] if q == x }; b ? b.call : :none }
  define_method(:m4) { [1, 2].each { |q| break [:b, q] } }
  define_method(:m5, &lambda { |x| return x * 2 })
  define_method(:m6) { |*a| loop { break a } }
  define_method(:m8) { -> { return 7 }.call + 1 }
  define_method(:m9) { proc { return 8 }.call; 9 }
  define_method(:m10) { begin; return 1; ensure; print "ens " end }
end
k = K.new
t(1) { k.m1 }
t(2) { [k.m2(5), k.m2(0)] }
t(3) { [k.m3(2), k.m3(9), k.m3(9) { :blk }, k.m3(9) { next :nx }] }
t(4) { k.m4 }
t(5) { k.m5(4) }
t(6) { k.m6(1, 2) }
t(8) { k.m8 }
t(9) { k.m9 }
t(10) { k.m10 }
t(11) { k.m3(9) { break :brk } }
t(12) { Hash.new { break 1 }[:x] }
t(13) { Fiber.new { break 1 }.resume }
t(14) { Enumerator.new { |y| break 5 }.next }
t(15) { 5.tap { break 3 } }
t(16) { 5.then { |x| break x + 1 } }
t(17) { {a: 1}.fetch(:z) { |q| break [q] } }
t(18) { Array.new(3) { |i| break i + 7 if i == 1; i } }
def pass(&b) [1, 2].each(&b) end
t(19) { pass { |x| break x * 9 } }
def call_it(&b) b.call(1); :after end
t(20) { call_it { |x| break 3 } }
t(21) { call_it { |x| next 3 } }
def keep(&b) b end
t(22) { keep { break 1 }.call }
t(23) { x = proc { break 2 }; [1].each(&x) }
t(24) { x = lambda { |q| break 2 }; [1, 2].map(&x) }
t(25) { x = lambda { |q| return q * 2 }; [1, 2].map(&x) }
t(26) { x = proc { |q| next q * 3 }; [1, 2].map(&x) }
t(27) { def rr; x = proc { return 4 }; [1].each(&x); 5 end; rr }
t(28) { def rs; x = keep { return 4 }; [1].each(&x); 5 end; rs }
t(29) { def rl; l = lambda { [1, 2].each { |q| return q } ; 9 }; [l.call, 6] end; rl }
t(30) { [1, 2, 3].inject { |a, b| break a if b == 3; a + b } }
t(31) { [3, 1].sort_by { |x| break :sb } }
t(32) { {a: 1}.map { |q, w| break [q, w] } }
t(33) { (1..3).each_slice(2) { |q| break q } }
t(34) { 3.times { |i| break i if i == 1 } }
t(35) { 1.step(9, 2) { |i| break i if i > 4 } }
t(36) { "abc".each_char { |c| break c } }
t(37) { [1].each_with_object([]) { |q, m| break m << 5 } }
t(38) { [[1, 2]].each { |a, b| break a, b } }
t(39) { [1, 2].each { |x| [3, 4].each { |y| break } ; break x } }
t(40) { [1, 2].each { |x| r = [3, 4].each { |y| break y }; break [x, r] } }
t(41) { while true do [1].each { break }; break 5 end }
t(42) { r = []; [1, 2].each { |x| i = 0; while true do i += 1; next if i < 3; break end; r << [x, i] }; r }
t(43) { def y2; yield; yield end; n = 0; y2 { n += 1; break n } }
t(44) { def y3; r = [yield, yield]; r end; n = 0; y3 { n += 1; next n * 10 } }
t(45) { def y4; begin; yield; ensure; print "e4 " end end; y4 { break :b4 } }
t(46) { def y5; yield; rescue LocalJumpError; :resc end; y5 { break :b5 } }
t(47) { def y6(&b) y7(&b) end; def y7(&b) y8(&b); :no end; def y8; yield; end; y6 { break :b6 } }
t(48) { def y9; [1].each { yield }; :no end; y9 { break :b9 } }
t(49) { def ya; l = -> { yield }; l.call; :no end; ya { break :ba } }
t(50) { def yb; Fiber.new { yield }.resume; :no end; yb { next :bb } }
t(51) { def yc; Fiber.new { yield }.resume; :no end; yc { break :bc } }
t(52) { def yd; e = Enumerator.new { |y| y << yield }; e.next end; yd { next 5 } }
t(53) { define_it = ->(&b) { b.call }; define_it.call { next 5 } }
t(54) { define_it = ->(&b) { b.call; :no }; define_it.call { break 5 } }
t(55) { pr = proc { |&b| b.call; :no }; pr.call { break 6 } }
t(56) { k.send(:m3, 9) { break 7 } }
t(57) { [1].send(:each) { break 8 } }
t(58) { k.public_send(:m3, 9) { |x| next 9 } }
class MM; def method_missing(n, *a) r = yield(*a); [n, r] end end
t(59) { MM.new.foo(1) { |x| break x } }
t(60) { MM.new.foo(1) { |x| next x } }
class SU; def a; [:su, yield] end end
class SV < SU; def a; r = super { next 1 }; [r, (super { break 2 })] end; end
t(61) { SV.new.a }
class SW < SU; def a; r = super; [:sw, r] end end
t(62) { SW.new.a { next 3 } }
t(63) { SW.new.a { break 4 } }
class IN; def initialize; @r = yield end; attr_reader :r end
t(64) { IN.new { break 5 } }
t(65) { IN.new { next 6 }.r }
t(66) { catch_ret = [1, 2].each { |x| begin; next if x == 1; break x; ensure; print "E#{x} " end }; catch_ret }
t(67) { def ens; [1, 2].each { |x| begin; return x; ensure; break 9 end } end; ens }
t(68) { def ens2; [1, 2].each { |x| begin; return x; ensure; next end }; :fell end; ens2 }
t(69) { def ens3; while true do begin; return 1; ensure; break end end; :fell3 end; ens3 }
t(70) { def ens4; begin; raise "x"; ensure; return 4 end end; ens4 }
t(71) { def ens5; [1].each { begin; raise "x"; ensure; next end }; :ok5 end; ens5 }
t(72) do
  [1, 2, 3].each do |x|
    begin
      raise "x" if x == 2
    rescue
      break :resc
    else
      print "el#{x} "
    ensure
      print "en#{x} "
    end
  end
end
t(73) { l = lambda { |x| begin; return x; ensure; return x + 1 end }; l.call(1) }
t(74) { def nest; yield(->(x) { return x * 2 }) + 1 end; nest { |f| f.call(5) } }
t(75) { def retl; f = proc { |x| return x }; g = ->(y) { f.call(y); 0 }; g.call(3); 1 end; retl }
t(77) { [1, 2].each(&:foo) }
t(78) { loop { loop { break }; break :outer } }
t(79) { i = 0; begin; i += 1; raise "r" if i < 3; i; rescue; retry; end }
t(80) { x = [1, 2, 3].each_with_index { |v, j| next if v < 2; break [v, j] }; x }
t(81) { for q in 1..5 do next if q < 3; break q * 2 end }
t(82) { for q in [1, 2] do begin; next; ensure; print "f#{q} " end end }
t(83) { def fr; for q in 1..3 do return q if q == 2 end; :no end; fr }
t(84) { def fy; for q in [1, 2] do yield q end end; fy { |z| break z + 10 } }
t(85) { until false do break until_val = 3 end }
t(86) { begin; [1].each { raise StopIteration, "s" }; rescue StopIteration => e; e.message end }
t(87) { loop { [1].each { raise StopIteration } } }
t(88) { [1, 2, 3].map { |x| next if x == 2; x } }
t(89) { [1, 2, 3].select { |x| next true if x == 2; false } }
t(90) { [1, 2, 3].find { |x| next x == 2 } }
t(91) { [[1, 2], [3, 4]].each { |a, b| next unless a > 1; break [a, b] } }
t(92) { def dm; self.class.send(:define_method, :dmx) { |v = 1| return v }; [dmx, dmx(2)] end; dm }
t(93) { def lj; [1].each(&keep { |x| break x }) end; lj }
t(94) { b = nil; def kk(&x) x end; b = kk { |x| next x }; [b.call(1), b.(2)] }
t(95) { def outer2; inner2 { |x| return x }; :no end; def inner2; [5].each { |y| yield y }; :no end; outer2 }
