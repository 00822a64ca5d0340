# encoding: binary
# Calls with their results. Made by scripts/calls/make.rb of scripts/calls/enumerable.rows.
class Version
  include Comparable
  attr_reader :number

  def initialize(number)
    @number = number
  end

  def <=>(other)
    return nil unless other.is_a?(Version)
    number <=> other.number
  end

  def inspect
    "v#{number}"
  end
end

class Bag
  include Enumerable

  def initialize(*items)
    @items = items
  end

  def each
    @items.each { |item| yield item }
    :done
  end
end

# Its items are two values each.
class Pairs
  include Enumerable

  def each
    yield 1, 2
    yield 3, 4
  end
end

class Odds
  include Enumerable

  def each
    yield
    yield nil
    yield [1]
    yield 1, 2
  end
end

class Broken
  include Enumerable

  def each
    yield 1
    raise "own"
  end
end

def v(number)
  Version.new(number)
end

def bag
  Bag.new(3, 1, 2, 3)
end

# What a method hands to its block.
def seen(value, name, *items)
  found = []
  value.send(name, *items) { |*x| found << x }
  found
end

def counting
  Enumerator.new do |y|
    n = 0
    loop do
      y << n
      n += 1
    end
  end
end

def two
  Enumerator.new do |y|
    y << 1
    y.yield 2
    :ended
  end
end

def row(number)
  value = yield
  puts "#{number} #{value.inspect}"
rescue Exception => error
  puts "#{number} #{error.class}: #{error.message}"
end

row(1) { v(2) < v(1) }
row(2) { v(2) < v(2) }
row(3) { v(2) < v(3) }
row(4) { v(2) <= v(1) }
row(5) { v(2) <= v(2) }
row(6) { v(2) <= v(3) }
row(7) { v(2) > v(1) }
row(8) { v(2) > v(2) }
row(9) { v(2) > v(3) }
row(10) { v(2) >= v(1) }
row(11) { v(2) >= v(2) }
row(12) { v(2) >= v(3) }
row(13) { v(2) == v(1) }
row(14) { v(2) == v(2) }
row(15) { v(2) == v(3) }
row(16) { v(2) != v(1) }
row(17) { v(2) != v(2) }
row(18) { v(2) != v(3) }
row(19) { v(2) <=> v(1) }
row(20) { v(2) <=> v(2) }
row(21) { v(2) <=> v(3) }
row(22) { v(2).between?(v(1), v(3)) }
row(23) { v(2).clamp(v(1), v(3)) }
row(24) { v(0).between?(v(1), v(3)) }
row(25) { v(0).clamp(v(1), v(3)) }
row(26) { v(1).between?(v(1), v(3)) }
row(27) { v(1).clamp(v(1), v(3)) }
row(28) { v(3).between?(v(1), v(3)) }
row(29) { v(3).clamp(v(1), v(3)) }
row(30) { v(4).between?(v(1), v(3)) }
row(31) { v(4).clamp(v(1), v(3)) }
row(32) { v(2) == 2 }
row(33) { v(2) == nil }
row(34) { v(2) == "a" }
row(35) { v(2) != nil }
row(36) { v(2) < "a" }
row(37) { v(2) >= [] }
row(38) { v(2) > Object.new }
row(39) { v(2) < 1 } # not Ruby's: text shows classes
row(40) { v(2) >= 1 } # not Ruby's: text shows classes
row(41) { v(2) < nil } # not Ruby's: text shows classes
row(42) { v(2).between?(1, 2) } # not Ruby's: text shows classes
row(43) { v(2).then { |x| [x == x, x <= x, x.equal?(x)] } }
row(44) { v(2).between?(v(1)) }
row(45) { [v(1), v(2)].include?(v(2)) }
row(46) { [v(1), v(2), v(1)].index(v(2)) }
row(47) { [v(1), v(2)] == [v(1), v(2)] }
row(48) { [v(1)].count(v(1)) }
row(49) { [v(2), v(1)].sort } # not Ruby's: Integers, Strings and Arrays have an order
row(50) { [v(2), v(1)].min } # not Ruby's: Integers, Strings and Arrays have an order
row(51) { [v(2), v(1)].max } # not Ruby's: Integers, Strings and Arrays have an order
row(52) { bag.to_a }
row(53) { bag.entries }
row(54) { bag.sort }
row(55) { bag.min }
row(56) { bag.max }
row(57) { bag.sum }
row(58) { bag.count }
row(59) { bag.first }
row(60) { bag.uniq }
row(61) { bag.tally }
row(62) { bag.any? }
row(63) { bag.all? }
row(64) { bag.none? }
row(65) { Bag.new.to_a }
row(66) { Bag.new.sort }
row(67) { Bag.new.min }
row(68) { Bag.new.max }
row(69) { Bag.new.sum }
row(70) { Bag.new.count }
row(71) { Bag.new.first }
row(72) { Bag.new.uniq }
row(73) { Bag.new.tally }
row(74) { Bag.new.any? }
row(75) { Bag.new.all? }
row(76) { Bag.new.none? }
row(77) { Bag.new(nil, false).any? }
row(78) { Bag.new(nil, false).all? }
row(79) { Bag.new(nil, false).none? }
row(80) { Bag.new(nil, false).count }
row(81) { bag.first(0) }
row(82) { bag.first(2) }
row(83) { bag.first(9) }
row(84) { bag.take(0) }
row(85) { bag.take(2) }
row(86) { bag.take(9) }
row(87) { bag.drop(0) }
row(88) { bag.drop(2) }
row(89) { bag.drop(9) }
row(90) { bag.first(-1) } # not Ruby's: text of a count
row(91) { bag.include?(3) }
row(92) { bag.include?(9) }
row(93) { bag.member?(3) }
row(94) { bag.member?(9) }
row(95) { bag.count(3) }
row(96) { bag.count(9) }
row(97) { bag.map { |x| x > 1 } }
row(98) { bag.collect { |x| x > 1 } }
row(99) { bag.select { |x| x > 1 } }
row(100) { bag.filter { |x| x > 1 } }
row(101) { bag.reject { |x| x > 1 } }
row(102) { bag.find { |x| x > 1 } }
row(103) { bag.detect { |x| x > 1 } }
row(104) { bag.find_index { |x| x > 1 } }
row(105) { bag.partition { |x| x > 1 } }
row(106) { bag.group_by { |x| x > 1 } }
row(107) { bag.take_while { |x| x > 1 } }
row(108) { bag.drop_while { |x| x > 1 } }
row(109) { bag.all? { |x| x > 1 } }
row(110) { bag.any? { |x| x > 1 } }
row(111) { bag.none? { |x| x > 1 } }
row(112) { bag.count { |x| x > 1 } }
row(113) { bag.map { |x| -x } }
row(114) { bag.flat_map { |x| -x } }
row(115) { bag.group_by { |x| -x } }
row(116) { bag.min_by { |x| -x } }
row(117) { bag.max_by { |x| -x } }
row(118) { bag.sort_by { |x| -x } }
row(119) { bag.find { |x| -x } }
row(120) { bag.partition { |x| -x } }
row(121) { bag.flat_map { |x| [x, x] } }
row(122) { bag.inject(:+) }
row(123) { bag.inject(10, :+) }
row(124) { bag.inject(:*) }
row(125) { bag.reduce(:+) }
row(126) { bag.reduce(10, :+) }
row(127) { bag.reduce(:*) }
row(128) { bag.inject { |a, b| a * 10 + b } }
row(129) { bag.inject(0) { |a, b| a - b } }
row(130) { bag.sum(10) }
row(131) { bag.zip([4, 5]) }
row(132) { bag.each_with_object([]) { |x, a| a << x } }
row(133) { bag.each { |x| x } }
row(134) { bag.each { |x| break x } }
row(135) { bag.map { |x| break x } }
row(136) { bag.find { |x| x == 9 } }
row(137) { bag.map(&:to_s) }
row(138) { seen(bag, :each) }
row(139) { seen(bag, :map) }
row(140) { seen(bag, :each_with_index) }
row(141) { seen(bag, :reverse_each) }
row(142) { seen(bag, :select) }
row(143) { seen(bag, :find) }
row(144) { seen(bag, :each_slice, 1) }
row(145) { seen(bag, :each_slice, 2) }
row(146) { seen(bag, :each_slice, 4) }
row(147) { seen(bag, :each_slice, 5) }
row(148) { seen(bag, :each_cons, 1) }
row(149) { seen(bag, :each_cons, 2) }
row(150) { seen(bag, :each_cons, 4) }
row(151) { seen(bag, :each_cons, 5) }
row(152) { bag.each_slice(0) { |x| x } } # not Ruby's: text of a count
row(153) { bag.map } # not Ruby's: no enumerators of rows
row(154) { bag.select } # not Ruby's: no enumerators of rows
row(155) { bag.each_with_index } # not Ruby's: no enumerators of rows
row(156) { bag.group_by } # not Ruby's: no enumerators of rows
row(157) { bag.find } # not Ruby's: no enumerators of rows
row(158) { bag.reverse_each } # not Ruby's: no enumerators of rows
row(159) { bag.flat_map } # not Ruby's: no enumerators of rows
row(160) { bag.min_by } # not Ruby's: no enumerators of rows
row(161) { bag.sort { |a, b| b <=> a } } # not Ruby's: a block of sort is ignored
row(162) { Bag.new("b", 1).sort } # not Ruby's: text of a comparison
row(163) { Bag.new("b", 1).min } # not Ruby's: text of a comparison
row(164) { Bag.new("b", "a").sort }
row(165) { Bag.new("b", "a").min }
row(166) { Bag.new("b", "a").max }
row(167) { Bag.new([1, 2], [3, 4]).to_a }
row(168) { Bag.new([1, 2], [3, 4]).map { |a, b| a + b } }
row(169) { Pairs.new.to_a }
row(170) { Pairs.new.entries }
row(171) { Pairs.new.first }
row(172) { Pairs.new.count }
row(173) { Pairs.new.include?([1, 2]) }
row(174) { Pairs.new.include?(1) }
row(175) { Pairs.new.sum([]) }
row(176) { Pairs.new.uniq }
row(177) { Pairs.new.drop(1) }
row(178) { Pairs.new.take(1) }
row(179) { Pairs.new.zip([5, 6]) }
row(180) { Pairs.new.map { |a, b| a + b } }
row(181) { Pairs.new.select { |a, b| b > 2 } }
row(182) { Pairs.new.reject { |a, b| b > 2 } }
row(183) { Pairs.new.find { |a, b| b > 2 } }
row(184) { Pairs.new.partition { |a, b| b > 2 } }
row(185) { Pairs.new.count { |a, b| b > 2 } }
row(186) { Pairs.new.all? { |a, b| b > 2 } }
row(187) { Pairs.new.any? { |a, b| b > 2 } }
row(188) { seen(Pairs.new, :each_with_index) }
row(189) { seen(Pairs.new, :each_slice, 2) }
row(190) { seen(Pairs.new, :reverse_each) }
row(191) { Pairs.new.inject { |a, b| a + b } }
row(192) { Pairs.new.each_with_object([]) { |(a, b), c| c << b } }
row(193) { Odds.new.to_a }
row(194) { Odds.new.count }
row(195) { Broken.new.to_a }
row(196) { Broken.new.sort }
row(197) { Broken.new.count }
row(198) { Broken.new.map { |x| x } }
row(199) { Object.new.extend(Enumerable).to_a } # not Ruby's: text shows the class
row(200) { [1, 2, 3].to_enum.then { |e| [e.next, e.next, e.peek, e.next] } }
row(201) { [1].to_enum.then { |e| [e.peek, e.peek, e.next] } }
row(202) { [].to_enum.next }
row(203) { [].to_enum.peek }
row(204) { [1].to_enum.tap { |e| e.next }.next }
row(205) { [1].to_enum.tap { |e| e.next }.peek }
row(206) { [1, 2].to_enum.tap { |e| e.next }.rewind.next }
row(207) { [1, 2].to_enum.each { |x| x } }
row(208) { [].tap { |a| [1, 2].to_enum.each { |x| a << x } } }
row(209) { [].tap { |a| {1 => 2}.to_enum.each { |k, v| a << k << v } } }
row(210) { {1 => 2}.to_enum.next }
row(211) { (1..3).to_enum.then { |e| [e.next, e.next] } }
row(212) { [5, 6].to_enum(:each_with_index).next }
row(213) { [1, 2, 3].to_enum(:each_slice, 2).then { |e| [e.next, e.next] } }
row(214) { [1, 2, 3].enum_for(:each_cons, 2).then { |e| [e.next, e.next] } }
row(215) { 3.to_enum(:times).then { |e| [e.next, e.next, e.next] } }
row(216) { "ab".to_enum(:each_char).then { |e| [e.next, e.next] } }
row(217) { bag.to_enum.then { |e| [e.next, e.next] } }
row(218) { Pairs.new.to_enum.then { |e| [e.next, e.next] } }
row(219) { counting.then { |e| [e.next, e.next, e.next] } }
row(220) { counting.tap { |e| 5.times { e.next } }.peek }
row(221) { two.then { |e| [e.next, e.next] } }
row(222) { two.each { |x| x } }
row(223) { [].tap { |a| two.each { |x| a << x } } }
row(224) { two.tap { |e| 2.times { e.next } }.next }
row(225) { two.then { |e| loop { e.next } } }
row(226) { (begin; two.tap { |e| 2.times { e.next } }.next; rescue StopIteration => e; e.result; end) }
row(227) { (begin; [7].to_enum.tap { |e| e.next }.next; rescue StopIteration => e; e.result; end) }
row(228) { [1, 2].to_enum.then { |e| loop { e.next } } }
row(229) { [].tap { |a| [1, 2].to_enum.then { |e| loop { a << e.next } } } }
row(230) { [].tap { |a| [1, 2].to_enum.then { |e| f = [3, 4, 5].to_enum; loop { a << e.next + f.next } } } }
row(231) { two.tap { |e| e.next }.dup } # not Ruby's: objects show their class alone
row(232) { two.class }
row(233) { Enumerator.new { |y| raise "own" }.next }
row(234) { Enumerator.new { |y| y << 1; raise "own" }.tap { |e| e.next }.next }
row(235) { Enumerator.new { |y| y.yield }.next }
row(236) { Enumerator.new { |y| y.yield 1, 2 }.next }
row(237) { Enumerator.new { |y| y.yield }.tap { |e| e.next }.next }
row(238) { Enumerator.new } # not Ruby's: text of a block
row(239) { two.map { |x| x } } # not Ruby's: an enumerator has next, peek, rewind and each
row(240) { two.take(1) } # not Ruby's: an enumerator has next, peek, rewind and each
row(241) { two.to_a } # not Ruby's: an enumerator has next, peek, rewind and each
row(242) { two.with_index } # not Ruby's: an enumerator has next, peek, rewind and each
row(243) { two.size } # not Ruby's: an enumerator has next, peek, rewind and each
row(244) { two.each } # not Ruby's: no enumerators of rows
row(245) { Fiber.new { 1 }.resume }
row(246) { Fiber.new { |a, b| [a, b] }.resume(1, 2) }
row(247) { Fiber.new { |a| Fiber.yield(a + 1) + 10 }.then { |f| [f.resume(1), f.resume(5), f.alive?] } }
row(248) { Fiber.new { Fiber.yield }.resume }
row(249) { Fiber.new { Fiber.yield 1, 2 }.resume }
row(250) { Fiber.new { Fiber.yield 1 }.tap { |f| f.resume }.alive? }
row(251) { Fiber.new { 3.times { |i| Fiber.yield i }; :end }.then { |f| [f.resume, f.resume, f.resume, f.resume] } }
row(252) { Fiber.new { raise "own" }.resume }
row(253) { Fiber.new { [1, 2].each { |x| Fiber.yield x } }.then { |f| [f.resume, f.resume, f.resume] } }
row(254) { Fiber.new { Fiber.new { Fiber.yield 1; 2 }.then { |g| [g.resume, g.resume] } }.resume }
