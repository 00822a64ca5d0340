# encoding: binary
# Calls with their results. Made by scripts/calls/make.rb of scripts/calls/number.rows.
# What a method hands to its block.
def seen(value, name, *items)
  found = []
  value.send(name, *items) { |*x| found << x }
  found
end

def row(number)
  value = yield
  puts "#{number} #{value.inspect}"
rescue Exception => error
  puts "#{number} #{error.class}: #{error.message}"
end

row(1) { 7 + 1 }
row(2) { 7 - 1 }
row(3) { 7 * 1 }
row(4) { 7 / 1 }
row(5) { 7 % 1 }
row(6) { 7 & 1 }
row(7) { 7 ^ 1 }
row(8) { 7 <=> 1 }
row(9) { 7 == 1 }
row(10) { 7 < 1 }
row(11) { -7 + 1 }
row(12) { -7 - 1 }
row(13) { -7 * 1 }
row(14) { -7 / 1 }
row(15) { -7 % 1 }
row(16) { -7 & 1 }
row(17) { -7 ^ 1 }
row(18) { -7 <=> 1 }
row(19) { -7 == 1 }
row(20) { -7 < 1 }
row(21) { 0 + 1 }
row(22) { 0 - 1 }
row(23) { 0 * 1 }
row(24) { 0 / 1 }
row(25) { 0 % 1 }
row(26) { 0 & 1 }
row(27) { 0 ^ 1 }
row(28) { 0 <=> 1 }
row(29) { 0 == 1 }
row(30) { 0 < 1 }
row(31) { 9223372036854775807 - 1 }
row(32) { 9223372036854775807 * 1 }
row(33) { 9223372036854775807 / 1 }
row(34) { 9223372036854775807 % 1 }
row(35) { 9223372036854775807 & 1 }
row(36) { 9223372036854775807 ^ 1 }
row(37) { 9223372036854775807 <=> 1 }
row(38) { -9223372036854775808 + 1 }
row(39) { -9223372036854775808 * 1 }
row(40) { -9223372036854775808 / 1 }
row(41) { -9223372036854775808 % 1 }
row(42) { -9223372036854775808 & 1 }
row(43) { -9223372036854775808 ^ 1 }
row(44) { -9223372036854775808 <=> 1 }
row(45) { 7 / 2 }
row(46) { 7 % 2 }
row(47) { 7 ** 2 }
row(48) { 7 & 2 }
row(49) { 7 ^ 2 }
row(50) { 7 << 2 }
row(51) { 7 >> 2 }
row(52) { -7 / 2 }
row(53) { -7 % 2 }
row(54) { -7 ** 2 }
row(55) { -7 & 2 }
row(56) { -7 ^ 2 }
row(57) { -7 << 2 }
row(58) { -7 >> 2 }
row(59) { 7 / -2 }
row(60) { 7 % -2 }
row(61) { -7 / -2 }
row(62) { -7 % -2 }
row(63) { 7.send(:|, 8) }
row(64) { 7.send(:|, -1) }
row(65) { 7.div(2) }
row(66) { 7.div(-2) }
row(67) { 7.modulo(2) }
row(68) { 7.modulo(-2) }
row(69) { 7.divmod(2) }
row(70) { 7.divmod(-2) }
row(71) { -7.div(2) }
row(72) { -7.div(-2) }
row(73) { -7.modulo(2) }
row(74) { -7.modulo(-2) }
row(75) { -7.divmod(2) }
row(76) { -7.divmod(-2) }
row(77) { 1 <=> 0 }
row(78) { 1 <=> "a" }
row(79) { 1 <=> nil }
row(80) { 0 <=> 0 }
row(81) { 0 <=> "a" }
row(82) { 0 <=> nil }
row(83) { -1 <=> 0 }
row(84) { -1 <=> "a" }
row(85) { -1 <=> nil }
row(86) { 1 == 0 }
row(87) { 1 == "a" }
row(88) { 1 == nil }
row(89) { 0 == 0 }
row(90) { 0 == "a" }
row(91) { 0 == nil }
row(92) { -1 == 0 }
row(93) { -1 == "a" }
row(94) { -1 == nil }
row(95) { 5.abs }
row(96) { 5.succ }
row(97) { 5.next }
row(98) { 5.pred }
row(99) { 5.ord }
row(100) { 5.to_i }
row(101) { 5.to_s }
row(102) { 5.inspect }
row(103) { 5.zero? }
row(104) { 5.even? }
row(105) { 5.odd? }
row(106) { 5.positive? }
row(107) { 5.negative? }
row(108) { 5.-@ }
row(109) { 5.+@ }
row(110) { 5.~ }
row(111) { -5.abs }
row(112) { -5.succ }
row(113) { -5.next }
row(114) { -5.pred }
row(115) { -5.ord }
row(116) { -5.to_i }
row(117) { -5.to_s }
row(118) { -5.inspect }
row(119) { -5.zero? }
row(120) { -5.even? }
row(121) { -5.odd? }
row(122) { -5.positive? }
row(123) { -5.negative? }
row(124) { -5.-@ }
row(125) { -5.+@ }
row(126) { -5.~ }
row(127) { 0.abs }
row(128) { 0.succ }
row(129) { 0.next }
row(130) { 0.pred }
row(131) { 0.ord }
row(132) { 0.to_i }
row(133) { 0.to_s }
row(134) { 0.inspect }
row(135) { 0.zero? }
row(136) { 0.even? }
row(137) { 0.odd? }
row(138) { 0.positive? }
row(139) { 0.negative? }
row(140) { 0.-@ }
row(141) { 0.+@ }
row(142) { 0.~ }
row(143) { -5.abs }
row(144) { - 5.abs }
row(145) { 2 ** 0 }
row(146) { 2 ** 10 }
row(147) { 2 ** 62 }
row(148) { 0 ** 0 }
row(149) { -2 ** 2 }
row(150) { (-2) ** 63 }
row(151) { 2 ** -1 } # not Ruby's: no fractions
row(152) { 2 ** 63 } # not Ruby's: 64 bits
row(153) { 9223372036854775807 + 1 } # not Ruby's: 64 bits
row(154) { -9223372036854775808 - 1 } # not Ruby's: 64 bits
row(155) { 9223372036854775807 * 2 } # not Ruby's: 64 bits
row(156) { -(-9223372036854775808) } # not Ruby's: 64 bits
row(157) { -9223372036854775808.abs } # not Ruby's: 64 bits
row(158) { -9223372036854775808 / -1 } # not Ruby's: 64 bits
row(159) { -9223372036854775808 % -1 }
row(160) { 9223372036854775807.succ } # not Ruby's: 64 bits
row(161) { -9223372036854775808.pred } # not Ruby's: 64 bits
row(162) { 1 << 0 }
row(163) { 1 << 3 }
row(164) { 1 << 62 }
row(165) { 1 << -1 }
row(166) { 1 << 63 } # not Ruby's: 64 bits
row(167) { 1 << 64 } # not Ruby's: 64 bits
row(168) { 1 << 1000 } # not Ruby's: 64 bits
row(169) { -1 << 63 }
row(170) { 0 << 1000 }
row(171) { 5 >> 0 }
row(172) { 5 >> 1 }
row(173) { 5 >> 70 }
row(174) { 5 >> -1 }
row(175) { -5 >> 1 }
row(176) { -5 >> 70 }
row(177) { 1 / 0 }
row(178) { 1 % 0 }
row(179) { 1.div(0) }
row(180) { 1.modulo(0) }
row(181) { 1.divmod(0) }
row(182) { 0 / 0 }
row(183) { 1 + "a" } # not Ruby's: text of a type
row(184) { 1 - "a" } # not Ruby's: text of a type
row(185) { 1 * "a" } # not Ruby's: text of a type
row(186) { 1 / "a" } # not Ruby's: text of a type
row(187) { 1 % "a" } # not Ruby's: text of a type
row(188) { 1 ** "a" } # not Ruby's: text of a type
row(189) { 1 + nil } # not Ruby's: text of a type
row(190) { 1 & nil } # not Ruby's: text of a type
row(191) { 1 << nil } # not Ruby's: text of a type
row(192) { 1 < "a" }
row(193) { 1 >= "a" }
row(194) { 1 > nil } # not Ruby's: text shows classes
row(195) { 1.+(2, 3) }
row(196) { 65.chr }
row(197) { 0.chr }
row(198) { 200.chr }
row(199) { 255.chr }
row(200) { 256.chr }
row(201) { -1.chr }
row(202) { 10.to_s(2) }
row(203) { 10.to_s(16) }
row(204) { 10.to_s(36) }
row(205) { -255.to_s(2) }
row(206) { -255.to_s(16) }
row(207) { -255.to_s(36) }
row(208) { 0.to_s(2) }
row(209) { 0.to_s(16) }
row(210) { 0.to_s(36) }
row(211) { 10.to_s(1) } # not Ruby's: text of a base
row(212) { 10.to_s(37) } # not Ruby's: text of a base
row(213) { 10.to_s(-2) } # not Ruby's: text of a base
row(214) { 10.to_s("a") } # not Ruby's: text of a type
row(215) { 0.between?(1, 5) }
row(216) { 0.clamp(1, 5) }
row(217) { 1.between?(1, 5) }
row(218) { 1.clamp(1, 5) }
row(219) { 5.between?(1, 5) }
row(220) { 5.clamp(1, 5) }
row(221) { 6.between?(1, 5) }
row(222) { 6.clamp(1, 5) }
row(223) { 1.between?(1) }
row(224) { 0x1F + 0b11 + 0o17 + 017 + 1_000 }
row(225) { seen(3, :times) }
row(226) { seen(0, :times) }
row(227) { seen(-1, :times) }
row(228) { seen(2, :upto, 4) }
row(229) { seen(2, :upto, 2) }
row(230) { seen(2, :upto, 1) }
row(231) { seen(2, :downto, 0) }
row(232) { seen(2, :downto, 2) }
row(233) { seen(2, :downto, 3) }
row(234) { seen(1, :step, 10, 4) }
row(235) { seen(1, :step, 4, 3) }
row(236) { seen(1, :step, 0, 2) }
row(237) { seen(1, :step, 1, 1) }
row(238) { seen(5, :step, 1, -2) }
row(239) { seen(5, :step, 1, -4) }
row(240) { seen(5, :step, 6, -1) }
row(241) { 3.times { |i| i } }
row(242) { 0.times { |i| i } }
row(243) { 1.upto(3) { |i| i } }
row(244) { 3.downto(1) { |i| i } }
row(245) { 1.step(9, 3) { |i| i } }
row(246) { 3.times { |i| break i * 10 if i == 1 } }
row(247) { 3.times { |i| next } }
row(248) { 1.upto(9) { |i| break if i == 2 } }
row(249) { 1.step(5, 0) { |i| i } } # not Ruby's: text of a step
row(250) { 3.times } # not Ruby's: no enumerators of rows
row(251) { 1.upto(3) } # not Ruby's: no enumerators of rows
row(252) { 1.downto(3) } # not Ruby's: no enumerators of rows
row(253) { 1.upto("a") { |i| i } } # not Ruby's: text of a type
row(254) { 1.upto { |i| i } }
row(255) { (1..4).to_a }
row(256) { (1..4).entries }
row(257) { (1..4).first }
row(258) { (1..4).last }
row(259) { (1..4).begin }
row(260) { (1..4).end }
row(261) { (1..4).size }
row(262) { (1..4).exclude_end? }
row(263) { (1..4).to_s }
row(264) { (1..4).inspect }
row(265) { (1..4).min }
row(266) { (1..4).max }
row(267) { (1..4).sum }
row(268) { (1..4).count }
row(269) { (1..4).sort }
row(270) { (1..4).uniq }
row(271) { (1..4).tally }
row(272) { (1..4).any? }
row(273) { (1..4).all? }
row(274) { (1..4).none? }
row(275) { (1...4).to_a }
row(276) { (1...4).entries }
row(277) { (1...4).begin }
row(278) { (1...4).end }
row(279) { (1...4).size }
row(280) { (1...4).exclude_end? }
row(281) { (1...4).to_s }
row(282) { (1...4).inspect }
row(283) { (1...4).min }
row(284) { (1...4).max }
row(285) { (1...4).sum }
row(286) { (1...4).count }
row(287) { (1...4).sort }
row(288) { (1...4).last }
row(289) { (4..1).to_a }
row(290) { (4..1).size }
row(291) { (4..1).sum }
row(292) { (4..1).count }
row(293) { (4..1).min }
row(294) { (4..1).max }
row(295) { (4..1).any? }
row(296) { (4..1).all? }
row(297) { (4..1).none? }
row(298) { (4..1).begin }
row(299) { (4..1).end }
row(300) { (4..1).inspect }
row(301) { (4..1).tally }
row(302) { ("a".."e").to_a }
row(303) { ("a".."e").first }
row(304) { ("a".."e").last }
row(305) { ("a".."e").begin }
row(306) { ("a".."e").end }
row(307) { ("a".."e").exclude_end? }
row(308) { ("a".."e").to_s }
row(309) { ("a".."e").inspect }
row(310) { ("a".."e").min }
row(311) { ("a".."e").max }
row(312) { ("a".."e").count }
row(313) { ("a".."e").tally }
row(314) { ("a".."e").size } # not Ruby's: a Range of Strings counts bytes
row(315) { ("a"..."e").to_a }
row(316) { ("a"..."e").count }
row(317) { ("a".."e").first(2) }
row(318) { ("a".."c").include?("b") }
row(319) { ("a".."c").include?("z") }
row(320) { (-3..-1).to_a }
row(321) { Range.new(1, 4) }
row(322) { Range.new(1, 4, true) }
row(323) { Range.new(1, 4, false) }
row(324) { Range.new("a", "c") }
row(325) { Range.new(1, "a") }
row(326) { Range.new(1, nil) } # not Ruby's: ends are Integers or Strings of one byte
row(327) { Range.new("aa", "b") } # not Ruby's: ends are Integers or Strings of one byte
row(328) { (nil..1) } # not Ruby's: ends are Integers or Strings of one byte
row(329) { Range.new(1) }
row(330) { (1..4).include?(1) }
row(331) { (1..4).include?(4) }
row(332) { (1..4).include?(5) }
row(333) { (1..4).include?(0) }
row(334) { (1..4).member?(1) }
row(335) { (1..4).member?(4) }
row(336) { (1..4).member?(5) }
row(337) { (1..4).member?(0) }
row(338) { (1..4).===(1) }
row(339) { (1..4).===(4) }
row(340) { (1..4).===(5) }
row(341) { (1..4).===(0) }
row(342) { (1...4).include?(3) }
row(343) { (1...4).include?(4) }
row(344) { (1...4).member?(3) }
row(345) { (1...4).member?(4) }
row(346) { (1...4).===(3) }
row(347) { (1...4).===(4) }
row(348) { (1..4) == (1..4) }
row(349) { (1..4) == (1...4) }
row(350) { (1..4) == (1..5) }
row(351) { (1..4) == 1 }
row(352) { (1..4) == nil }
row(353) { (1..4).first(0) }
row(354) { (1..4).first(2) }
row(355) { (1..4).first(9) }
row(356) { (1..4).first(-1) } # not Ruby's: text of a count
row(357) { (1..4).first("a") } # not Ruby's: text of a type
row(358) { (1..4).take(0) }
row(359) { (1..4).take(3) }
row(360) { (1..4).take(9) }
row(361) { (1..4).drop(0) }
row(362) { (1..4).drop(3) }
row(363) { (1..4).drop(9) }
row(364) { (1..4).sum(10) }
row(365) { ("a".."c").sum("") }
row(366) { ("a".."c").sum } # not Ruby's: text of a type
row(367) { (1..4).zip([5, 6]) }
row(368) { (1..4).include?(2) }
row(369) { (1..4).count(2) }
row(370) { seen((1..3), :each) }
row(371) { seen((1..3), :map) }
row(372) { seen((1..3), :select) }
row(373) { seen((1..3), :each_with_index) }
row(374) { seen((1..3), :reverse_each) }
row(375) { seen((1..3), :find) }
row(376) { seen((1..3), :find_index) }
row(377) { seen((1...1), :each) }
row(378) { seen(("a".."c"), :each) }
row(379) { seen((1..10), :step, 1) }
row(380) { seen((1..10), :step, 3) }
row(381) { seen((1..10), :step, 10) }
row(382) { seen((1..5), :each_slice, 1) }
row(383) { seen((1..5), :each_slice, 2) }
row(384) { seen((1..5), :each_slice, 5) }
row(385) { seen((1..5), :each_slice, 9) }
row(386) { seen((1..5), :each_cons, 1) }
row(387) { seen((1..5), :each_cons, 2) }
row(388) { seen((1..5), :each_cons, 5) }
row(389) { seen((1..5), :each_cons, 9) }
row(390) { (1..3).each { |x| x } }
row(391) { (1..3).reverse_each { |x| x } }
row(392) { (1..3).each_with_index { |x| x } }
row(393) { (1..10).step(4) { |x| x } }
row(394) { (1..3).each { |x| break x } }
row(395) { (1..6).map { |x| x % 3 == 1 } }
row(396) { (1..6).collect { |x| x % 3 == 1 } }
row(397) { (1..6).select { |x| x % 3 == 1 } }
row(398) { (1..6).filter { |x| x % 3 == 1 } }
row(399) { (1..6).reject { |x| x % 3 == 1 } }
row(400) { (1..6).find { |x| x % 3 == 1 } }
row(401) { (1..6).detect { |x| x % 3 == 1 } }
row(402) { (1..6).find_index { |x| x % 3 == 1 } }
row(403) { (1..6).partition { |x| x % 3 == 1 } }
row(404) { (1..6).group_by { |x| x % 3 == 1 } }
row(405) { (1..6).count { |x| x % 3 == 1 } }
row(406) { (1..6).any? { |x| x % 3 == 1 } }
row(407) { (1..6).all? { |x| x % 3 == 1 } }
row(408) { (1..6).none? { |x| x % 3 == 1 } }
row(409) { (1..6).take_while { |x| x % 3 == 1 } }
row(410) { (1..6).drop_while { |x| x % 3 == 1 } }
row(411) { (1..4).flat_map { |x| (x - 2) * (x - 2) } }
row(412) { (1..4).min_by { |x| (x - 2) * (x - 2) } }
row(413) { (1..4).max_by { |x| (x - 2) * (x - 2) } }
row(414) { (1..4).sort_by { |x| (x - 2) * (x - 2) } }
row(415) { (1..4).group_by { |x| (x - 2) * (x - 2) } }
row(416) { (1..4).flat_map { |x| [x] * x } }
row(417) { (1..4).inject(:+) }
row(418) { (1..4).inject(:*) }
row(419) { (1..4).inject(10, :+) }
row(420) { (1..4).inject(:-) }
row(421) { (1..4).reduce(:+) }
row(422) { (1..4).reduce(:*) }
row(423) { (1..4).reduce(10, :+) }
row(424) { (1..4).reduce(:-) }
row(425) { (1..4).inject { |a, b| a * b } }
row(426) { (1..4).reduce { |a, b| a * b } }
row(427) { (1..4).inject(2) { |a, b| a * b } }
row(428) { (1..0).inject(:+) }
row(429) { (1..4).each_with_object([]) { |x, a| a.unshift(x) } }
row(430) { (1..3).map(&:to_s) }
row(431) { (1..3).each_slice(0) { |x| x } } # not Ruby's: text of a count
row(432) { (1..3).step(0) { |x| x } } # not Ruby's: text of a step
row(433) { (1..3).step(-1) { |x| x } } # not Ruby's: text of a step
row(434) { (1..3).each } # not Ruby's: no enumerators of rows
row(435) { (1..3).map } # not Ruby's: no enumerators of rows
row(436) { (1..3).select } # not Ruby's: no enumerators of rows
row(437) { (1..3).each_with_index } # not Ruby's: no enumerators of rows
row(438) { (1..3).reverse_each } # not Ruby's: no enumerators of rows
row(439) { (1..3).group_by } # not Ruby's: no enumerators of rows
row(440) { (1..3).partition } # not Ruby's: no enumerators of rows
row(441) { (1..3).step(2) } # not Ruby's: no enumerators of rows
row(442) { 1.nope } # not Ruby's: text of a missing method
row(443) { (1..2).nope } # not Ruby's: text of a missing method
