# What each iteration hands to its block, by the shape of the block's parameters.
SCORES = {a: 1, b: 2}
PAIRS = [[1, 2], [3, 4]]

# Writes the number of a case and what its block gives or raises.
def try(number)
  print number, " "
  p yield
rescue ArgumentError, NoMethodError, TypeError => error
  puts error.class
end

# The arguments that a call hands to its block, one Array for each turn.
def handed(list, name, *items)
  seen = []
  list.send(name, *items) do |*given|
    seen << given
    false
  end
  seen
end

try(1) { r = []; SCORES.dup.delete_if { |k| r << k; false }; r }
try(2) { r = []; SCORES.each_pair { |k| r << k }; r }
try(3) { r = []; SCORES.each { |k| r << k }; r }
try(4) { SCORES.map { |k| k } }
try(5) { SCORES.any? { |k| k == :a } }
try(6) { SCORES.all? { |k| k.is_a?(Array) } }
try(7) { SCORES.count { |k| k.is_a?(Array) } }
try(8) { SCORES.find { |k| k.is_a?(Array) } }
try(9) { SCORES.partition { |k| k.is_a?(Array) } }
try(10) { SCORES.min_by { |k| k[1] } }
try(11) { SCORES.sort_by { |k| -k[1] } }
try(12) { SCORES.group_by { |k| k.class } }
try(13) { SCORES.flat_map { |k| k } }
try(14) { SCORES.sum { |k| k[1] } }
try(15) { SCORES.inject { |a, k| a + k } }
try(16) { r = []; SCORES.each_with_index { |k, i| r << [k, i] }; r }
try(17) { SCORES.each_with_object([]) { |k, a| a << k } }
try(18) { SCORES.take_while { |k| k.is_a?(Array) } }
try(19) { SCORES.drop_while { |k| k.is_a?(Symbol) } }
try(20) { SCORES.find_index { |k| k == [:b, 2] } }
try(21) { SCORES.none? { |k| k.nil? } }
try(22) { r = []; SCORES.each_slice(1) { |k| r << k }; r }
try(23) { r = []; SCORES.each_slice(2) { |k, l| r << [k, l] }; r }
try(24) { r = []; SCORES.each_cons(2) { |k, l| r << l }; r }
try(25) { r = []; SCORES.reverse_each { |k| r << k }; r }
try(26) { r = []; SCORES.reverse_each { |k, v| r << v }; r }
try(27) { SCORES.map(&:first) }
try(28) { SCORES.map(&:last).sum }
try(29) { SCORES.fetch(:zz) { |k, x| [k, x] } }
try(30) { Hash.new { |hh| [hh.class] }[:q] }
try(31) { Hash.new { |hh, k, z| [k, z] }[:q] }
try(32) { SCORES.each_key { |k, x| p [k, x] }.size }
try(33) { SCORES.each_value { |*v| p v }.size }
try(34) { SCORES.each { |*a| p a }.size }
try(35) { SCORES.map { |*a| a } }
try(36) { SCORES.find { |k, v| v == 2 } }
try(37) { SCORES.find_index { |k, v| v == 2 } }
try(38) { SCORES.each_with_index { |(k, v), i| p [k, v, i] }.size }
try(39) { SCORES.max_by { |k, v| v } }
try(40) { SCORES.partition { |k, v| v > 1 } }
try(41) { SCORES.reduce(0) { |s, (k, v)| s + v } }
try(42) { SCORES.to_a.each { |k, v| p v }.size }
try(43) { SCORES.to_a.map(&->((k, v)) { v }) }
try(44) { PAIRS.each_with_index { |(a, b), i| p [a, b, i] }.size }
try(45) { PAIRS.inject(0) { |s, (a, b)| s + a * b } }
try(46) { PAIRS.each_with_object([]) { |(a, b), m| m << a + b } }
try(47) { [[1, [2, 3]]].each { |a, (b, c)| p [a, b, c] }.size }
try(48) { [[1, 2]].map(&:sum) }
try(49) { PAIRS.map { |a| a } }
try(50) { PAIRS.map { |a, | a } }
try(51) { PAIRS.map { |*a| a } }
try(52) { PAIRS.map { |a, *b| b } }
try(53) { PAIRS.map(&->(a) { a }) }
try(54) { PAIRS.select { |a, b| b > 2 } }
try(55) { PAIRS.find { |a, b| b > 2 } }
try(56) { PAIRS.sort_by { |a, b| -b } }
try(57) { PAIRS.group_by { |a, b| b.even? } }
try(58) { PAIRS.each_slice(1) { |a| p a }.class }
try(59) { PAIRS.each_cons(2) { |a, b| p a, b }.class }
try(60) { PAIRS.each_cons(2) { |(a, b), (c, d)| p [a, b, c, d] }.class }
try(61) { PAIRS.count { |a, b| a + b == 7 } }
try(62) { PAIRS.sum { |a, b| a * b } }
try(63) { PAIRS.flat_map { |a, b| [b, a] } }
try(64) { PAIRS.min_by { |a, b| -a } }
try(65) { PAIRS.take_while { |a, b| b == 2 } }
try(66) { PAIRS.partition { |a, b| b == 2 } }
try(67) { PAIRS.reject { |a, b| b == 2 } }
try(68) { a = PAIRS.dup; a.map! { |x, y| x + y }; a }
try(69) { a = PAIRS.dup; a.delete_if { |x, y| y == 4 }; a }
try(70) { PAIRS.all? { |x, y| y > x } }
try(71) { PAIRS.find_index { |x, y| y == 4 } }
try(72) { PAIRS.reverse_each { |x, y| p y }.size }
try(73) { Array.new(2) { |i, j| [i, j] } }
try(74) { 2.times { |i, j| p [i, j] } }
try(75) { 1.upto(2) { |*i| p i } }
try(76) { "ab".each_char { |c, d| p [c, d] } }
try(77) { (1..2).each { |a, b| p [a, b] }.to_s }
try(78) { 5.tap { |a, b| p [a, b] } }
try(79) { [1, 2].then { |a, b| [a, b] } }
try(80) { [1, 2].tap { |a, b| p [a, b] } }
try(81) { loop { |x| break x.inspect } }
try(82) { Fiber.new { |x, y| [x, y] }.resume([1, 2]) }
try(83) { Fiber.new { |x| x }.resume(1, 2) }
try(84) { Enumerator.new { |y, z| y << z.inspect }.next }
try(85) { [[[1, 2], 3]].map { |(a, b), c| [a, b, c] } }
try(86) { PAIRS.zip([5, 6]).map { |(a, b), c| a + b + c } }
try(87) { {[1, 2] => 3}.map { |(a, b), c| a + b + c } }
try(88) { {[1, 2] => [3, 4]}.each { |(a, b), (c, d)| p [a, b, c, d] }.size }
try(89) { SCORES.each_with_object({}) { |(k, v), m| m[v] = k } }
try(90) { SCORES.inject([]) { |m, kv| m << kv } }
try(91) { [1, 2, 3].each_slice(2) { |a, b| p [a, b] }.class }
try(92) { [1, 2, 3].inject { |a, b, c| p [a, b, c]; a + b } }
try(93) { [1, 2].each_with_index { |*a| p a }.size }
try(94) { [[1, 2]].each_with_index { |*a| p a }.size }
try(95) { [[1, 2]].each_with_index { |a, *b| p a, b }.size }
try(96) { [[1, 2]].each_with_object(:m) { |*a| p a } }
try(97) { [[1, 2], 3].inject { |*a| a } }
try(98) { [[1, 2]].group_by { |*a| a } }
try(99) { [[1, 2]].sort_by { |*a| p a; 1 } }
try(100) { [[1, 2]].flat_map { |*a| a } }
try(101) { [[1, 2]].find { |*a| p a } }
try(102) { [[1, 2]].all? { |*a| p a } }
try(103) { [[1, 2]].count { |*a| p a } }
try(104) { [[1, 2]].sum { |*a| a.length } }
try(105) { [[1, 2]].min_by { |*a| a.length } }
try(106) { [[1, 2]].partition { |*a| p a } }
try(107) { [[1, 2]].take_while { |*a| p a } }
try(108) { [[1, 2]].find_index { |*a| p a } }
try(109) { [[1, 2]].each_slice(1) { |*a| p a } }
try(110) { [[1, 2]].each_cons(1) { |*a| p a } }
try(111) { [[1, 2]].reverse_each { |*a| p a } }
try(112) { [[1, 2]].tally }
try(113) { [[1, 2]].select { |*a| p a } }
try(114) { [[1, 2]].delete_if { |*a| p a; false } }
try(115) { [[1, 2]].map! { |*a| a } }
try(116) { [[1, 2]].drop_while { |*a| p a } }
try(117) { [[1, 2]].none? { |*a| p a } }
try(118) { [[1, 2]].any? { |*a| p a } }
try(119) { [[1, 2]].reject { |*a| p a } }
try(120) { SCORES.all? { |*a| p a } }
try(121) { SCORES.any? { |*a| p a; false } }
try(122) { SCORES.none? { |*a| p a; false } }
try(123) { SCORES.count { |*a| p a } }
try(124) { SCORES.find { |*a| p a; false } }
try(125) { SCORES.partition { |*a| p a } }
try(126) { SCORES.sum { |*a| a.length } }
try(127) { SCORES.min_by { |*a| p a; 1 } }
try(128) { SCORES.group_by { |*a| p a; 1 } }
try(129) { SCORES.flat_map { |*a| a } }
try(130) { SCORES.each_with_index { |*a| p a }.size }
try(131) { SCORES.dup.delete_if { |*a| p a; false }.size }
try(132) { SCORES.each_pair { |*a| p a }.size }
try(133) { SCORES.take_while { |*a| p a } }
try(134) { SCORES.find_index { |*a| p a; false } }
try(135) { SCORES.sort_by { |*a| p a; 1 }.size }
try(136) { SCORES.inject { |*a| a } }

NAMES = [:map, :flat_map, :each_with_index, :each_slice, :each_cons, :reverse_each, :take_while, :find_index, :group_by]
NAMES.each do |name|
  more = [:each_slice, :each_cons].include?(name) ? [1] : []
  p [name, handed(SCORES, name, *more), handed(PAIRS, name, *more), handed(1..2, name, *more)]
end
