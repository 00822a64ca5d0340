# encoding: binary
# Calls with their results. Made by scripts/calls/make.rb of scripts/calls/hash.rows.
def changed(hash)
  yield hash
  hash
end

# What a method hands to its block.
def seen(hash, name, *items)
  found = []
  hash.send(name, *items) { |*x| found << x }
  found
end

def ages
  {"ann" => 31, "bob" => 25, "cid" => 31}
end

def row(number)
  value = yield
  puts "#{number} #{value.inspect}"
rescue Exception => error
  puts "#{number} #{error.class}: #{error.message}"
end

row(1) { {} }
row(2) { {1 => 2} }
row(3) { {:a => 1, "b" => [2], nil => nil} }
row(4) { {a: 1, b: {c: 2}} }
row(5) { {1 => 2, 1 => 3} }
row(6) { {[1, 2] => 3, true => false, (1..2) => :r} }
row(7) { {:"a b" => 1, :a? => 2, :+ => 3} }
row(8) { {1 => 2}.inspect }
row(9) { {1 => 2}.to_s }
row(10) { {1 => 2}.to_h }
row(11) { {1 => 2}.to_a }
row(12) { {1 => 2}.entries }
row(13) { {1 => 2}.dup }
row(14) { {1 => 2}.clone }
row(15) { Hash.new }
row(16) { Hash.new(5).length }
row(17) { Hash.new(5).default }
row(18) { Hash.new(5).empty? }
row(19) { Hash.new(5).inspect }
row(20) { Hash.new(5)[:none] }
row(21) { Hash.new(5).fetch(:none, 6) }
row(22) { Hash.new { |h, k| k * 2 }[4] }
row(23) { Hash.new { |h, k| h[k] = k * 2 }.tap { |h| h[4] } }
row(24) { Hash.new { |h, k| 1 }.default }
row(25) { Hash.new { |h, k| 1 }.length }
row(26) { Hash.new { |h, k| raise "own" }[1] }
row(27) { Hash.new(1, 2) }
row(28) { ages["ann"] }
row(29) { ages["none"] }
row(30) { ages[:ann] }
row(31) { ages[nil] }
row(32) { {1 => :a, "1" => :b, :"1" => :c, nil => :d, [1] => :e, true => :f}[1] }
row(33) { {1 => :a, "1" => :b, :"1" => :c, nil => :d, [1] => :e, true => :f}["1"] }
row(34) { {1 => :a, "1" => :b, :"1" => :c, nil => :d, [1] => :e, true => :f}[:"1"] }
row(35) { {1 => :a, "1" => :b, :"1" => :c, nil => :d, [1] => :e, true => :f}[nil] }
row(36) { {1 => :a, "1" => :b, :"1" => :c, nil => :d, [1] => :e, true => :f}[[1]] }
row(37) { {1 => :a, "1" => :b, :"1" => :c, nil => :d, [1] => :e, true => :f}[true] }
row(38) { {1 => :a, "1" => :b, :"1" => :c, nil => :d, [1] => :e, true => :f}[false] }
row(39) { {1 => :a, "1" => :b, :"1" => :c, nil => :d, [1] => :e, true => :f}[[[1]]] }
row(40) { ages.fetch("ann") }
row(41) { ages.fetch("none", 0) }
row(42) { ages.fetch("ann", 0) }
row(43) { ages.fetch("none") { |k| k + "!" } }
row(44) { ages.fetch("none") }
row(45) { ages.fetch(:none) }
row(46) { ages.fetch(nil) }
row(47) { ages.fetch([1, "a"]) }
row(48) { ages.fetch }
row(49) { ages.key?("ann") }
row(50) { ages.key?("none") }
row(51) { ages.key?(31) }
row(52) { ages.has_key?("ann") }
row(53) { ages.has_key?("none") }
row(54) { ages.has_key?(31) }
row(55) { ages.include?("ann") }
row(56) { ages.include?("none") }
row(57) { ages.include?(31) }
row(58) { ages.member?("ann") }
row(59) { ages.member?("none") }
row(60) { ages.member?(31) }
row(61) { ages.value?(31) }
row(62) { ages.value?(25) }
row(63) { ages.value?(99) }
row(64) { ages.value?("ann") }
row(65) { ages.key(31) }
row(66) { ages.key(25) }
row(67) { ages.key(99) }
row(68) { ages.key("ann") }
row(69) { ages.keys }
row(70) { ages.values }
row(71) { ages.length }
row(72) { ages.size }
row(73) { ages.empty? }
row(74) { ages.first }
row(75) { ages.count }
row(76) { ages.invert }
row(77) { ages.tally }
row(78) { ages.uniq }
row(79) { ages.any? }
row(80) { ages.all? }
row(81) { ages.none? }
row(82) { {}.keys }
row(83) { {}.values }
row(84) { {}.length }
row(85) { {}.empty? }
row(86) { {}.first }
row(87) { {}.to_a }
row(88) { {}.invert }
row(89) { {}.sum }
row(90) { {}.min }
row(91) { {}.max }
row(92) { {}.sort }
row(93) { {}.any? }
row(94) { {}.all? }
row(95) { {}.none? }
row(96) { {}.inspect }
row(97) { {}.default }
row(98) { ages.sort }
row(99) { ages.min }
row(100) { ages.max }
row(101) { ages.first(0) }
row(102) { ages.first(2) }
row(103) { ages.first(9) }
row(104) { ages.take(1) }
row(105) { ages.take(9) }
row(106) { ages.drop(1) }
row(107) { ages.drop(9) }
row(108) { ages.first(-1) } # not Ruby's: text of a count
row(109) { ages.key? }
row(110) { changed(ages) { |h| h["bob"] = 1 } }
row(111) { changed(ages) { |h| h["dan"] = 1 } }
row(112) { changed(ages) { |h| h[:ann] = 1 } }
row(113) { changed(ages) { |h| h.store("dan", 4) } }
row(114) { ({}[1] = 2) }
row(115) { {}.store(1, 2) }
row(116) { changed({}) { |h| k = "a"; h[k] = 1; k << "b"; h["c"] = k } }
row(117) { changed({}) { |h| k = [1]; h[k] = 1; k << 2; h[[1]] = 3 } } # not Ruby's: an Array is a key by the elements that it had when it came
row(118) { changed(ages) { |h| h.delete("ann") } }
row(119) { changed(ages) { |h| h.delete("none") } }
row(120) { ages.delete("ann") }
row(121) { ages.delete("none") }
row(122) { changed(ages) { |h| h.delete("ann"); h["ann"] = 1 } }
row(123) { changed(ages) { |h| h.clear } }
row(124) { ages.clear }
row(125) { ages.length }
row(126) { changed(ages) { |h| h.default = 7 }["none"] }
row(127) { ({}.default = 7) }
row(128) { changed({}) { |h| h.default = 7 }.default }
row(129) { ages.merge({}) }
row(130) { ages.merge({"ann" => 1}) }
row(131) { ages.merge({"dan" => 4, "bob" => 2}) }
row(132) { changed(ages) { |h| h.merge({"ann" => 1}) } }
row(133) { changed(ages) { |h| h.merge!({"ann" => 1, "z" => 2}) } }
row(134) { changed(ages) { |h| h.update({"ann" => 1, "z" => 2}) } }
row(135) { ages.merge(1) } # not Ruby's: text of a type
row(136) { ages.update(1) } # not Ruby's: text of a type
row(137) { ages.merge!(1) } # not Ruby's: text of a type
row(138) { {}.merge(nil) } # not Ruby's: text of a type
row(139) { {1 => 2}.freeze.tap { |h| h[3] = 4 } } # not Ruby's: freeze has no effect
row(140) { {1 => 2, 3 => 4} == {3 => 4, 1 => 2} }
row(141) { {1 => 2, 3 => 4} == {1 => 2} }
row(142) { {1 => 2, 3 => 4} == {1 => 2, 3 => 5} }
row(143) { {1 => 2, 3 => 4} == nil }
row(144) { {1 => 2, 3 => 4} == [] }
row(145) { {1 => 2, 3 => 4} == {1 => 2, 3 => 4, 5 => 6} }
row(146) { {} == {} }
row(147) { {1 => 2} != {1 => 2} }
row(148) { {:a => [1]} == {:a => [1]} }
row(149) { {1 => 2}.equal?({1 => 2}) }
row(150) { seen(ages, :each) }
row(151) { seen(ages, :each_pair) }
row(152) { seen(ages, :each_key) }
row(153) { seen(ages, :each_value) }
row(154) { seen(ages, :each_with_index) }
row(155) { seen(ages, :reverse_each) }
row(156) { seen(ages, :map) }
row(157) { seen(ages, :find) }
row(158) { seen(ages, :each_slice, 2) }
row(159) { seen(ages, :each_cons, 2) }
row(160) { ages.each { |x, y| nil } }
row(161) { ages.each_pair { |x, y| nil } }
row(162) { ages.each_key { |x, y| nil } }
row(163) { ages.each_value { |x, y| nil } }
row(164) { ages.each_with_index { |x, y| nil } }
row(165) { ages.delete_if { |x, y| nil } }
row(166) { ages.each { |k, v| break k } }
row(167) { ages.each { |pair| break pair } }
row(168) { ages.select { |k, v| v > 25 } }
row(169) { ages.select { |k, v| v > 31 } }
row(170) { ages.filter { |k, v| v > 25 } }
row(171) { ages.filter { |k, v| v > 31 } }
row(172) { ages.reject { |k, v| v > 25 } }
row(173) { ages.reject { |k, v| v > 31 } }
row(174) { ages.partition { |k, v| v > 25 } }
row(175) { ages.partition { |k, v| v > 31 } }
row(176) { ages.find { |k, v| v > 25 } }
row(177) { ages.find { |k, v| v > 31 } }
row(178) { ages.detect { |k, v| v > 25 } }
row(179) { ages.detect { |k, v| v > 31 } }
row(180) { ages.find_index { |k, v| v > 25 } }
row(181) { ages.find_index { |k, v| v > 31 } }
row(182) { ages.count { |k, v| v > 25 } }
row(183) { ages.count { |k, v| v > 31 } }
row(184) { ages.any? { |k, v| v > 25 } }
row(185) { ages.any? { |k, v| v > 31 } }
row(186) { ages.all? { |k, v| v > 25 } }
row(187) { ages.all? { |k, v| v > 31 } }
row(188) { ages.none? { |k, v| v > 25 } }
row(189) { ages.none? { |k, v| v > 31 } }
row(190) { ages.delete_if { |k, v| v > 25 } }
row(191) { ages.delete_if { |k, v| v > 31 } }
row(192) { ages.take_while { |k, v| v > 25 } }
row(193) { ages.take_while { |k, v| v > 31 } }
row(194) { ages.drop_while { |k, v| v > 25 } }
row(195) { ages.drop_while { |k, v| v > 31 } }
row(196) { ages.map { |k, v| v > 25 } }
row(197) { ages.map { |k, v| v > 31 } }
row(198) { ages.collect { |k, v| v > 25 } }
row(199) { ages.collect { |k, v| v > 31 } }
row(200) { ages.group_by { |k, v| v > 25 } }
row(201) { ages.group_by { |k, v| v > 31 } }
row(202) { ages.select { |k, v| k == "bob" } }
row(203) { ages.filter { |k, v| k == "bob" } }
row(204) { ages.reject { |k, v| k == "bob" } }
row(205) { changed(ages) { |h| h.select { |k, v| v == 31 } } }
row(206) { changed(ages) { |h| h.reject { |k, v| v == 31 } } }
row(207) { changed(ages) { |h| h.delete_if { |k, v| v == 31 } } }
row(208) { ages.map { |k, v| [v, k] } }
row(209) { ages.map { |pair| pair.length } }
row(210) { ages.map { |k| k } }
row(211) { ages.flat_map { |k, v| [k, v] } }
row(212) { ages.sort_by { |k, v| [-v, k] } }
row(213) { ages.sort_by { |k, v| k } }
row(214) { ages.min_by { |k, v| k } }
row(215) { ages.max_by { |k, v| k } }
row(216) { ages.min_by { |k, v| v } }
row(217) { ages.max_by { |k, v| v } }
row(218) { ages.group_by { |k, v| v } }
row(219) { ages.find { |k, v| v == 25 } }
row(220) { ages.find { |k, v| v == 99 } }
row(221) { ages.each_with_object([]) { |(k, v), a| a << v } }
row(222) { ages.inject(0) { |sum, (k, v)| sum + v } }
row(223) { ages.reduce(0) { |sum, (k, v)| sum + v } }
row(224) { ages.inject { |a, b| a + b } }
row(225) { ages.inject(0) { |sum, pair| sum + pair[1] } }
row(226) { {1 => 2, 3 => 4}.inject(:+) }
row(227) { {1 => 2, 3 => 4}.sum([]) }
row(228) { {1 => 2}.sum } # not Ruby's: text of a type
row(229) { ages.zip([1, 2]) }
row(230) { ages.partition { |k, v| k > "ann" } }
row(231) { {2 => :a, 1 => :b}.to_a }
row(232) { {2 => :a, 1 => :b}.sort_by { |k, v| k } }
row(233) { {"x" => 1, 2 => 3}.sort } # not Ruby's: text of a comparison
row(234) { ages.each } # not Ruby's: no enumerators of rows
row(235) { ages.map } # not Ruby's: no enumerators of rows
row(236) { ages.select } # not Ruby's: no enumerators of rows
row(237) { ages.each_key } # not Ruby's: no enumerators of rows
row(238) { ages.each_pair } # not Ruby's: no enumerators of rows
row(239) { ages.delete_if } # not Ruby's: no enumerators of rows
row(240) { ages.reject } # not Ruby's: no enumerators of rows
row(241) { ages.find } # not Ruby's: no enumerators of rows
row(242) { ages.group_by } # not Ruby's: no enumerators of rows
row(243) { {1 => 2}.tap { |h| h.each { |k, v| h[k + 10] = v } } } # not Ruby's: each walks the pairs of its start
row(244) { {1 => 2, 3 => 4}.tap { |h| h.each { |k, v| h.delete(k) } } }
row(245) { {1 => 2, 3 => 4}.tap { |h| h.each { |k, v| h[k] = v + 1 } } }
row(246) { [[1, 2]].each_with_object({}) { |(k, v), h| h[k] = v } }
row(247) { %w[a b a].each_with_object(Hash.new(0)) { |w, h| h[w] += 1 } }
row(248) { [1, 2, 3].group_by { |x| x % 2 }.map { |k, v| [k, v.length] } }
row(249) { {1 => {2 => {3 => 4}}}[1][2][3] }
row(250) { {1 => [2]}.tap { |h| h[1] << 3 } }
row(251) { {1 => lambda { |x| x + 1 }}[1].call(2) }
row(252) { {1 => 2}.nope } # not Ruby's: text of a missing method
row(253) { changed({}) { |h| k = [1]; h[k] = 1; k << 2; h.clear } }
row(254) { changed({}) { |h| k = [1]; h[k] = 1; k << 2; h.delete_if { true } } }
row(255) { changed({}) { |h| k = [1]; h[k] = 1; k << 2; h[[1, 2]] = 3 }.dup }
row(256) { changed({}) { |h| k = [1]; h[k] = 1; k << 2; h[[1, 2]] = 3 }.clone }
row(257) { changed({}) { |h| k = [1]; h[k] = 1; k << 2; h[[1, 2]] = 3 }.merge({}) }
row(258) { Class.new(Hash).new(3).merge({1 => 2}).then { |h| [h.instance_of?(Hash), h, h[0]] } }
