# encoding: binary
# Calls with their results. Made by scripts/calls/make.rb of scripts/calls/array.rows.
def changed(list)
  yield list
  list
end

# What a method hands to its block.
def seen(list, name, *items)
  found = []
  list.send(name, *items) { |*x| found << x }
  found
end

# Equal to itself without being asked.
class Asked
  def ==(other)
    raise "own asked"
  end
end

def row(number)
  value = yield
  puts "#{number} #{value.inspect}"
rescue Exception => error
  puts "#{number} #{error.class}: #{error.message}"
end

row(1) { Array.new }
row(2) { Array.new(0) }
row(3) { Array.new(2) }
row(4) { Array.new(2, 7) }
row(5) { Array.new(3) { |i| i * i } }
row(6) { Array.new(-1) } # not Ruby's: text of a count
row(7) { Array.new("a") } # not Ruby's: text of a type
row(8) { Array.new(16777217).length } # not Ruby's: the greatest size
row(9) { Array.new(1, 2, 3) }
row(10) { [1, *[2, 3], *nil, *(4..5), *6] }
row(11) { [[1, 2], {1 => 2}, nil, "a", :b, 1..2] }
row(12) { [1, 2, 3][0] }
row(13) { [1, 2, 3][2] }
row(14) { [1, 2, 3][-1] }
row(15) { [1, 2, 3][-3] }
row(16) { [1, 2, 3][3] }
row(17) { [1, 2, 3][-4] }
row(18) { [1, 2, 3].at(1) }
row(19) { [1, 2, 3].at(-1) }
row(20) { [1, 2, 3].at(3) }
row(21) { [1, 2, 3].slice(1) }
row(22) { [1, 2, 3].slice(-1) }
row(23) { [1, 2, 3].slice(3) }
row(24) { [1, 2, 3][0, 2] }
row(25) { [1, 2, 3][1, 9] }
row(26) { [1, 2, 3][3, 1] }
row(27) { [1, 2, 3][4, 1] }
row(28) { [1, 2, 3][-2, 1] }
row(29) { [1, 2, 3][-4, 1] }
row(30) { [1, 2, 3][1, -1] }
row(31) { [1, 2, 3][0, 0] }
row(32) { [1, 2, 3][0..1] }
row(33) { [1, 2, 3][1...3] }
row(34) { [1, 2, 3][-2..-1] }
row(35) { [1, 2, 3][3..5] }
row(36) { [1, 2, 3][4..5] }
row(37) { [1, 2, 3][2..0] }
row(38) { [1, 2, 3][-9..1] }
row(39) { [1, 2, 3].slice(1, 2) }
row(40) { [1, 2, 3].slice(0..1) }
row(41) { [1, 2, 3].slice(3, 1) }
row(42) { [1, 2, 3].values_at(0, 2) }
row(43) { [1, 2, 3].values_at(-1, 5, 1) }
row(44) { [1, 2, 3].values_at() }
row(45) { [1, 2, 3].first }
row(46) { [1, 2, 3].last }
row(47) { [1, 2, 3].first(0) }
row(48) { [1, 2, 3].first(2) }
row(49) { [1, 2, 3].first(9) }
row(50) { [1, 2, 3].last(0) }
row(51) { [1, 2, 3].last(2) }
row(52) { [1, 2, 3].last(9) }
row(53) { [1, 2, 3].take(0) }
row(54) { [1, 2, 3].take(2) }
row(55) { [1, 2, 3].take(9) }
row(56) { [1, 2, 3].drop(0) }
row(57) { [1, 2, 3].drop(2) }
row(58) { [1, 2, 3].drop(9) }
row(59) { [].first }
row(60) { [].last }
row(61) { [].pop }
row(62) { [].shift }
row(63) { [].min }
row(64) { [].max }
row(65) { [].sort }
row(66) { [].uniq }
row(67) { [].compact }
row(68) { [].sum }
row(69) { [].tally }
row(70) { [].flatten }
row(71) { [].reverse }
row(72) { [].to_a }
row(73) { [].length }
row(74) { [].empty? }
row(75) { [1, 2, 3].first(-1) } # not Ruby's: text of a count
row(76) { [1, 2, 3].last(-1) } # not Ruby's: text of a count
row(77) { [1, 2, 3].take(-1) } # not Ruby's: text of a count
row(78) { [1, 2, 3].drop(-1) } # not Ruby's: text of a count
row(79) { [1, 2, 3].first("a") } # not Ruby's: text of a type
row(80) { [1, 2, 3].take("a") } # not Ruby's: text of a type
row(81) { [1, 2, 3].at("a") } # not Ruby's: text of a type
row(82) { [1, 2, 3].take }
row(83) { changed([1, 2, 3]) { |a| a[0] = 9 } }
row(84) { changed([1, 2, 3]) { |a| a[-1] = 9 } }
row(85) { changed([1, 2, 3]) { |a| a[3] = 9 } }
row(86) { changed([1, 2, 3]) { |a| a[5] = 9 } }
row(87) { changed([1, 2, 3]) { |a| a[-4] = 9 } } # not Ruby's: text of an index
row(88) { changed([1, 2, 3]) { |a| a[0, 2] = [7, 8] } }
row(89) { changed([1, 2, 3]) { |a| a[1, 0] = [7, 8] } }
row(90) { changed([1, 2, 3]) { |a| a[3, 1] = [7, 8] } }
row(91) { changed([1, 2, 3]) { |a| a[5, 1] = [7, 8] } }
row(92) { changed([1, 2, 3]) { |a| a[-1, 1] = [7, 8] } }
row(93) { changed([1, 2, 3]) { |a| a[0, 9] = [7, 8] } }
row(94) { changed([1, 2, 3]) { |a| a[0, -1] = [7] } } # not Ruby's: text of a count
row(95) { changed([1, 2, 3]) { |a| a[-4, 1] = [7] } } # not Ruby's: text of an index
row(96) { changed([]) { |a| a[0] = a.length } }
row(97) { changed([1]) { |a| a.push(2, 3) } }
row(98) { changed([1]) { |a| a.append(4) } }
row(99) { changed([1]) { |a| a.push } }
row(100) { changed([1]) { |a| a.unshift(0) } }
row(101) { changed([1]) { |a| a.unshift(7, 8) } }
row(102) { changed([1]) { |a| a.pop } }
row(103) { changed([1]) { |a| a.shift } }
row(104) { changed([1]) { |a| a.clear } }
row(105) { changed([1]) { |a| a.concat([2], [3]) } }
row(106) { changed([1]) { |a| a.concat } }
row(107) { changed([1]) { |a| a << 2 << [3] } }
row(108) { [1].push(2) }
row(109) { [1].append(2, 3) }
row(110) { [1].unshift(0) }
row(111) { [1].concat([2]) }
row(112) { [1].replace([4]) }
row(113) { [1].clear }
row(114) { [1].pop }
row(115) { [1].shift }
row(116) { [1].fill(0) }
row(117) { [1].insert(1, 5) }
row(118) { [1, 2].concat(3) } # not Ruby's: text of a type
row(119) { [1, 2].replace(nil) } # not Ruby's: text of a type
row(120) { [1, 2].insert(0, 9) }
row(121) { [1, 2].insert(1, 8, 9) }
row(122) { [1, 2].insert(2, 9) }
row(123) { [1, 2].insert(5, 9) }
row(124) { [1, 2].insert(-1, 9) }
row(125) { [1, 2].insert(-2, 8, 9) }
row(126) { [1, 2].insert(-3, 9) }
row(127) { [1, 2].insert(-4, 9) } # not Ruby's: text of an index
row(128) { [1, 2].insert("a", 9) } # not Ruby's: text of a type
row(129) { [1, 2, 3].fill(nil) }
row(130) { [1, 2, 1].delete(1) }
row(131) { [1, 2, 1].delete(2) }
row(132) { [1, 2, 1].delete(3) }
row(133) { changed([1, 2, 1]) { |a| a.delete(1) } }
row(134) { [1, 2, 3].delete_at(0) }
row(135) { [1, 2, 3].delete_at(-1) }
row(136) { [1, 2, 3].delete_at(5) }
row(137) { [1, 2, 3].delete_at(-4) }
row(138) { changed([1, 2, 3]) { |a| a.delete_at(1) } }
row(139) { changed([1, 2, 3]) { |a| a.delete_at(9) } }
row(140) { [1, 2, 3, 4].delete_if { |x| x > 2 } }
row(141) { changed([1, 2, 3, 4]) { |a| a.delete_if { |x| x.even? } } }
row(142) { [1, nil, false, nil].compact }
row(143) { [1, 2] + [] }
row(144) { [1, 2] + [3] }
row(145) { [1, 2] + [[3]] }
row(146) { [1, 2] + nil } # not Ruby's: text of a type
row(147) { [1, 2, 1, 3] - [1] }
row(148) { [1, 2, 1, 3] - [] }
row(149) { [1, 2, 1, 3] - [9] }
row(150) { [1, 2, 1, 3] - [3, 2] }
row(151) { [1, 2] - 1 } # not Ruby's: text of a type
row(152) { [1, 2] * 0 }
row(153) { [1, 2] * 1 }
row(154) { [1, 2] * 2 }
row(155) { [1, 2] * -1 } # not Ruby's: text of a count
row(156) { [1, 1, 2, 3] & [3, 1] }
row(157) { [1, 1, 2, 3] & [] }
row(158) { [1, 1, 2, 3] & [4] }
row(159) { [1, 1, 2].send(:|, [2, 3, 3]) }
row(160) { [1, 1, 2].send(:|, []) }
row(161) { [1, 2] == [1, 2] }
row(162) { [1, 2] == [2, 1] }
row(163) { [1, 2] == [1] }
row(164) { [1, 2] == 1 }
row(165) { [1, 2] == nil }
row(166) { [1, 2] == [1, [2]] }
row(167) { [1, "a", :b, nil] == [1, "a", :b, nil] }
row(168) { [1, 2] != [1, 2] }
row(169) { [1, 2] <=> [1, 2] }
row(170) { [1, 2] <=> [1, 3] }
row(171) { [1, 2] <=> [1] }
row(172) { [1, 2] <=> [1, 2, 0] }
row(173) { [1, 2] <=> [] }
row(174) { [1, 2] <=> 1 }
row(175) { [1, 2] <=> ["a"] }
row(176) { [1, 2].equal?([1, 2]) }
row(177) { [3, 1, 2].sort }
row(178) { [3, 1, 2].sort! }
row(179) { [3, 1, 2].reverse }
row(180) { [3, 1, 2].reverse! }
row(181) { [3, 1, 2].min }
row(182) { [3, 1, 2].max }
row(183) { [3, 1, 2].sum }
row(184) { ["b", "a", "ab"].sort }
row(185) { ["b", "a", "ab"].min }
row(186) { ["b", "a", "ab"].max }
row(187) { [[2, 1], [1, 2], [1]].sort }
row(188) { [[2, 1], [1, 2], [1]].min }
row(189) { [[2, 1], [1, 2], [1]].max }
row(190) { [:b, :a].sort } # not Ruby's: Integers, Strings and Arrays have an order
row(191) { [:b, :a].min } # not Ruby's: Integers, Strings and Arrays have an order
row(192) { [:b, :a].max } # not Ruby's: Integers, Strings and Arrays have an order
row(193) { [1, 3, 2].sort { |a, b| b <=> a } } # not Ruby's: a block of sort, min and max is ignored
row(194) { [1, 3, 2].max { |a, b| b <=> a } } # not Ruby's: a block of sort, min and max is ignored
row(195) { ["aa", "b"].min { |a, b| a.length <=> b.length } } # not Ruby's: a block of sort, min and max is ignored
row(196) { [3, 1, 2].sort_by { |x| [x] } }
row(197) { (1..12).sort_by { |n| [n % 3] } }
row(198) { [["b", 2], ["a", 3], ["b", 1], ["a"], [], ["ab", 0]].sort }
row(199) { [["b", 2], ["a", 3], ["b", 1], ["a"], [], ["ab", 0]].min }
row(200) { [["b", 2], ["a", 3], ["b", 1], ["a"], [], ["ab", 0]].max }
row(201) { [[3, "a"], [2, nil], [1]].sort }
row(202) { [[1, nil], [0], [1, 2]].sort } # not Ruby's: text of a comparison
row(203) { [3, 1, 2].sort_by { |n| n > 1 ? [nil, n] : [n] } } # not Ruby's: text of a comparison
row(204) { [1, "a"].sort } # not Ruby's: text of a comparison
row(205) { [1, "a"].min } # not Ruby's: text of a comparison
row(206) { [1, "a"].max } # not Ruby's: text of a comparison
row(207) { [1, "a"].sort! } # not Ruby's: text of a comparison
row(208) { [nil, 1].sort } # not Ruby's: text of a comparison
row(209) { [1, 2, 3, 4].rotate }
row(210) { [1, 2, 3, 4].rotate(0) }
row(211) { [1, 2, 3, 4].rotate(1) }
row(212) { [1, 2, 3, 4].rotate(-1) }
row(213) { [1, 2, 3, 4].rotate(5) }
row(214) { [1, 2, 3, 4].rotate(-6) }
row(215) { [].rotate(3) }
row(216) { [1, [2, [3, [4]], []]].flatten }
row(217) { [[1, 2], [3, 4], [5, 6]].transpose }
row(218) { [].transpose }
row(219) { [[1, 2], [3]].transpose } # not Ruby's: text of lengths
row(220) { [1].transpose } # not Ruby's: text of a type
row(221) { [3, 1, 3, 2, 1].uniq }
row(222) { [3, 1, 3, 2, 1].tally }
row(223) { ["a", :a, "a", 1].uniq }
row(224) { ["a", :a, "a", 1].tally }
row(225) { [1, 2, 3, 2].index(1) }
row(226) { [1, 2, 3, 2].index(2) }
row(227) { [1, 2, 3, 2].index(9) }
row(228) { [1, 2, nil].include?(2) }
row(229) { [1, 2, nil].include?(3) }
row(230) { [1, 2, nil].include?(nil) }
row(231) { [1, 2, 2].count }
row(232) { [1, 2, 2].count(2) }
row(233) { [1, 2, 2].count(3) }
row(234) { [1, 2, 2].count { |x| x == 2 } }
row(235) { [].all? }
row(236) { [].any? }
row(237) { [].none? }
row(238) { [1, nil].all? }
row(239) { [1, nil].any? }
row(240) { [1, nil].none? }
row(241) { [nil, false].all? }
row(242) { [nil, false].any? }
row(243) { [nil, false].none? }
row(244) { [1, 2].all? }
row(245) { [1, 2].any? }
row(246) { [1, 2].none? }
row(247) { [1, 2, 3].all? { |x| x < 3 } }
row(248) { [1, 2, 3].all? { |x| x < 9 } }
row(249) { [1, 2, 3].any? { |x| x < 3 } }
row(250) { [1, 2, 3].any? { |x| x < 9 } }
row(251) { [1, 2, 3].none? { |x| x < 3 } }
row(252) { [1, 2, 3].none? { |x| x < 9 } }
row(253) { [1, 2, 3].count { |x| x < 3 } }
row(254) { [1, 2, 3].count { |x| x < 9 } }
row(255) { [1, 2, 3].find { |x| x < 3 } }
row(256) { [1, 2, 3].find { |x| x < 9 } }
row(257) { [1, 2, 3].detect { |x| x < 3 } }
row(258) { [1, 2, 3].detect { |x| x < 9 } }
row(259) { [1, 2, 3].find_index { |x| x < 3 } }
row(260) { [1, 2, 3].find_index { |x| x < 9 } }
row(261) { [1, 2, 3].select { |x| x < 3 } }
row(262) { [1, 2, 3].select { |x| x < 9 } }
row(263) { [1, 2, 3].filter { |x| x < 3 } }
row(264) { [1, 2, 3].filter { |x| x < 9 } }
row(265) { [1, 2, 3].reject { |x| x < 3 } }
row(266) { [1, 2, 3].reject { |x| x < 9 } }
row(267) { [1, 2, 3].partition { |x| x < 3 } }
row(268) { [1, 2, 3].partition { |x| x < 9 } }
row(269) { [1, 2, 3].take_while { |x| x < 3 } }
row(270) { [1, 2, 3].take_while { |x| x < 9 } }
row(271) { [1, 2, 3].drop_while { |x| x < 3 } }
row(272) { [1, 2, 3].drop_while { |x| x < 9 } }
row(273) { [1, 2, 3].map { |x| -x } }
row(274) { [1, 2, 3].collect { |x| -x } }
row(275) { [1, 2, 3].flat_map { |x| -x } }
row(276) { [1, 2, 3].group_by { |x| -x } }
row(277) { [1, 2, 3].min_by { |x| -x } }
row(278) { [1, 2, 3].max_by { |x| -x } }
row(279) { [1, 2, 3].sort_by { |x| -x } }
row(280) { [1, 2, 3].flat_map { |x| [x, [x]] } }
row(281) { ["bb", "a", "cc", "d"].sort_by { |s| s.length } }
row(282) { ["bb", "a", "cc", "d"].min_by { |s| s.length } }
row(283) { ["bb", "a", "cc", "d"].max_by { |s| s.length } }
row(284) { ["bb", "a", "cc", "d"].group_by { |s| s.length } }
row(285) { [].find { |x| x } }
row(286) { [].detect { |x| x } }
row(287) { [].find_index { |x| x } }
row(288) { [].min_by { |x| x } }
row(289) { [].max_by { |x| x } }
row(290) { [].map { |x| x } }
row(291) { [].select { |x| x } }
row(292) { [].partition { |x| x } }
row(293) { [].group_by { |x| x } }
row(294) { [].sort_by { |x| x } }
row(295) { [].flat_map { |x| x } }
row(296) { [1, "a"].sort_by { |x| x } } # not Ruby's: text of a comparison
row(297) { seen([1, 2], :each) }
row(298) { seen([1, 2], :each_index) }
row(299) { seen([1, 2], :each_with_index) }
row(300) { seen([1, 2], :reverse_each) }
row(301) { seen([1, 2], :map) }
row(302) { seen([1, 2], :select) }
row(303) { seen([1, 2, 3, 4, 5], :each_slice, 1) }
row(304) { seen([1, 2, 3, 4, 5], :each_slice, 2) }
row(305) { seen([1, 2, 3, 4, 5], :each_slice, 5) }
row(306) { seen([1, 2, 3, 4, 5], :each_slice, 6) }
row(307) { seen([1, 2, 3, 4, 5], :each_cons, 1) }
row(308) { seen([1, 2, 3, 4, 5], :each_cons, 2) }
row(309) { seen([1, 2, 3, 4, 5], :each_cons, 5) }
row(310) { seen([1, 2, 3, 4, 5], :each_cons, 6) }
row(311) { seen([[1, 2], [3, 4]], :each) }
row(312) { seen([[1, 2], [3, 4]], :map) }
row(313) { seen([[1, 2], [3, 4]], :each_with_index) }
row(314) { [1, 2].each { |x| nil } }
row(315) { [1, 2].each_index { |x| nil } }
row(316) { [1, 2].each_with_index { |x| nil } }
row(317) { [1, 2].reverse_each { |x| nil } }
row(318) { [1, 2].delete_if { |x| nil } }
row(319) { [1, 2].each { |x| break x * 10 } }
row(320) { [1, 2].map { |x| break x * 10 } }
row(321) { [1, 2].select { |x| break x * 10 } }
row(322) { [1, 2].each_index { |x| break x * 10 } }
row(323) { [1, 2].each_slice(0) { |x| x } } # not Ruby's: text of a count
row(324) { [1, 2].each_cons(-1) { |x| x } } # not Ruby's: text of a count
row(325) { [1, 2].each_with_object([]) { |x, a| a << x * 2 } }
row(326) { [[1, 2], [3, 4]].map { |a, b| a + b } }
row(327) { [[1, 2], [3, 4]].each_with_object([]) { |(a, b), c| c << a * b } }
row(328) { [[1, [2, 3]]].map { |a, (b, c)| [c, b, a] } }
row(329) { [1, 2].map!{ |x| x + 1 } }
row(330) { changed([1, 2]) { |a| a.map! { |x| x.to_s } } }
row(331) { changed([1]) { |a| a.each { |x| a << x + 1 if x < 4 } } }
row(332) { [1, 2, 3].map(&:to_s) }
row(333) { [1, 2, 3].select(&:odd?) }
row(334) { [1, 2].each } # not Ruby's: no enumerators of rows
row(335) { [1, 2].map } # not Ruby's: no enumerators of rows
row(336) { [1, 2].select } # not Ruby's: no enumerators of rows
row(337) { [1, 2].each_with_index } # not Ruby's: no enumerators of rows
row(338) { [1, 2].group_by } # not Ruby's: no enumerators of rows
row(339) { [1, 2].sort_by } # not Ruby's: no enumerators of rows
row(340) { [1, 2].each_index } # not Ruby's: no enumerators of rows
row(341) { [1, 2].delete_if } # not Ruby's: no enumerators of rows
row(342) { [1, 2].find } # not Ruby's: no enumerators of rows
row(343) { [1, 2].partition } # not Ruby's: no enumerators of rows
row(344) { [1, 2].flat_map } # not Ruby's: no enumerators of rows
row(345) { [1, 2, 3].inject { |a, b| a * 10 + b } }
row(346) { [1, 2, 3].reduce { |a, b| a * 10 + b } }
row(347) { [1, 2, 3].inject(:+) }
row(348) { [1, 2, 3].inject(:*) }
row(349) { [1, 2, 3].inject(10, :-) }
row(350) { [1, 2, 3].inject("+") }
row(351) { [1, 2, 3].inject(4) { |a, b| a - b } }
row(352) { [].inject { |a, b| a } }
row(353) { [].inject(1) { |a, b| a } }
row(354) { [5].inject(:+) }
row(355) { [1, 2, 3].sum(10) }
row(356) { ["a", "b"].sum("") }
row(357) { [[1], [2]].sum([]) }
row(358) { ["a"].sum } # not Ruby's: text of a type
row(359) { [1, 2].inject(:nope) } # not Ruby's: text of a missing method
row(360) { [1, 2].zip([3, 4]) }
row(361) { [1, 2].zip([3]) }
row(362) { [1].zip([3, 4]) }
row(363) { [1, 2].to_a }
row(364) { [1, 2].entries }
row(365) { [1, 2].dup }
row(366) { [1, 2].clone }
row(367) { [1, 2].length }
row(368) { [1, 2].size }
row(369) { [1, 2].empty? }
row(370) { [1, [2, nil]].inspect }
row(371) { [1, [2, nil]].to_s }
row(372) { [1, [2, [nil, "a"]], :b].join() }
row(373) { [1, [2, [nil, "a"]], :b].join(",") }
row(374) { [1, [2, [nil, "a"]], :b].join("--") }
row(375) { [].join(",") }
row(376) { [1, 2].join(1) } # not Ruby's: text of a type
row(377) { [1, 2].freeze << 3 } # not Ruby's: freeze has no effect
row(378) { [1, 2].nope } # not Ruby's: text of a missing method
row(379) { [1, 2].length(1) }
row(380) { [1, 2].index(1, 2) } # not Ruby's: one item
row(381) { Asked.new.then { |x| [x].include?(x) } }
row(382) { Asked.new.then { |x| [x].index(x) } }
row(383) { Asked.new.then { |x| [x].count(x) } }
row(384) { Asked.new.then { |x| [[x].delete(x).equal?(x), [x] == [x], {1 => x} == {1 => x}, {1 => x}.value?(x), {1 => x}.key(x)] } }
row(385) { Asked.new.then { |x| [([x] - [x]).length, ([x] & [x]).length, ([x] | [x]).length] } }
row(386) { Class.new(Array).new(2, 1).then { |x| [x.to_a, x.to_a.class, x.to_a.equal?(x), x.class == Array] } }
row(387) { [1].then { |x| x.to_a.equal?(x) } }
