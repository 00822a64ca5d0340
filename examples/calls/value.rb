# encoding: binary
# Calls with their results. Made by scripts/calls/make.rb of scripts/calls/value.rows.
class Refused < StandardError
  attr_reader :code

  def initialize(code, text = "own refused")
    super(text)
    @code = code
  end
end

class Quiet < StandardError
  def message
    "own quiet"
  end
end

module Kin
end

class Odd < StandardError
  include Kin
end

def returning
  Proc.new { return 1 }
end

def breaking
  proc { break 1 }
end

def through
  [1, 2, 3].each { |x| return x * 10 if x == 2 }
  :end
end

def order(found)
  begin
    found << :body
    yield
    found << :after
  rescue ArgumentError => error
    found << error.message
  else
    found << :else
  ensure
    found << :ensure
  end
  found
end

def retried
  n = 0
  begin
    n += 1
    raise "own" if n < 3
    n
  rescue
    retry
  end
end

def ensured
  return :body
ensure
  $ensured = true
end

def replaced
  begin
    raise "own"
  ensure
    return :replaced
  end
end

def row(number)
  value = yield
  puts "#{number} #{value.inspect}"
rescue Exception => error
  puts "#{number} #{error.class}: #{error.message}"
end

row(1) { nil.to_s }
row(2) { nil.inspect }
row(3) { nil.class }
row(4) { nil.nil? }
row(5) { nil.! }
row(6) { true.to_s }
row(7) { true.inspect }
row(8) { true.class }
row(9) { true.nil? }
row(10) { true.! }
row(11) { false.to_s }
row(12) { false.inspect }
row(13) { false.class }
row(14) { false.nil? }
row(15) { false.! }
row(16) { true & true }
row(17) { true & false }
row(18) { true & nil }
row(19) { true & 1 }
row(20) { true ^ true }
row(21) { true ^ false }
row(22) { true ^ nil }
row(23) { true ^ 1 }
row(24) { false & true }
row(25) { false & false }
row(26) { false & nil }
row(27) { false & 1 }
row(28) { false ^ true }
row(29) { false ^ false }
row(30) { false ^ nil }
row(31) { false ^ 1 }
row(32) { true.send(:|, true) }
row(33) { true.send(:|, false) }
row(34) { true.send(:|, nil) }
row(35) { true.send(:|, 1) }
row(36) { false.send(:|, true) }
row(37) { false.send(:|, false) }
row(38) { false.send(:|, nil) }
row(39) { false.send(:|, 1) }
row(40) { nil.send(:|, true) }
row(41) { nil.send(:|, false) }
row(42) { nil.send(:|, nil) }
row(43) { nil.send(:|, 1) }
row(44) { nil & true }
row(45) { nil & nil }
row(46) { nil.to_a }
row(47) { nil.to_i }
row(48) { nil ^ true }
row(49) { nil ^ nil }
row(50) { nil == nil }
row(51) { nil == true }
row(52) { nil == false }
row(53) { nil == 0 }
row(54) { nil == "" }
row(55) { true == nil }
row(56) { true == true }
row(57) { true == false }
row(58) { true == 0 }
row(59) { true == "" }
row(60) { false == nil }
row(61) { false == true }
row(62) { false == false }
row(63) { false == 0 }
row(64) { false == "" }
row(65) { nil <=> nil }
row(66) { nil <=> true }
row(67) { nil <=> 1 }
row(68) { true <=> nil }
row(69) { true <=> true }
row(70) { true <=> 1 }
row(71) { nil + 1 } # not Ruby's: text shows the class
row(72) { nil[0] } # not Ruby's: text shows the class
row(73) { nil.length } # not Ruby's: text shows the class
row(74) { true.upcase } # not Ruby's: text shows the class
row(75) { [nil.to_s, true.to_s].map { |s| s + "!" } }
row(76) { 0 ? :yes : :no }
row(77) { "" ? :yes : :no }
row(78) { [] ? :yes : :no }
row(79) { nil ? :yes : :no }
row(80) { false ? :yes : :no }
row(81) { :a ? :yes : :no }
row(82) { nil and 2 }
row(83) { nil or 2 }
row(84) { nil && 2 }
row(85) { false and 2 }
row(86) { false or 2 }
row(87) { false && 2 }
row(88) { 1 and 2 }
row(89) { 1 or 2 }
row(90) { 1 && 2 }
row(91) { (nil or 3) }
row(92) { (not nil) }
row(93) { :a.inspect }
row(94) { :"a b".inspect }
row(95) { :a?.inspect }
row(96) { :a!.inspect }
row(97) { :a=.inspect }
row(98) { :A.inspect }
row(99) { :+.inspect }
row(100) { :[].inspect }
row(101) { :[]=.inspect }
row(102) { :!.inspect }
row(103) { :==.inspect }
row(104) { :<=>.inspect }
row(105) { :@a.inspect }
row(106) { :$a.inspect }
row(107) { :"9a".inspect }
row(108) { :"".inspect }
row(109) { :"a-b".inspect }
row(110) { :"a\n".inspect }
row(111) { :"a?b".inspect }
row(112) { :"@".inspect }
row(113) { :-@.inspect }
row(114) { :nil.inspect }
row(115) { :if.inspect }
row(116) { :a.to_s }
row(117) { :a.length }
row(118) { :a.size }
row(119) { :a.to_sym }
row(120) { :"a b".to_s }
row(121) { :"a b".length }
row(122) { :"a b".size }
row(123) { :"a b".to_sym }
row(124) { :[]=.to_s }
row(125) { :[]=.length }
row(126) { :[]=.size }
row(127) { :[]=.to_sym }
row(128) { :"a#{1 + 1}b" }
row(129) { %i[a b c].length }
row(130) { :a <=> :a }
row(131) { :a <=> :b }
row(132) { :a <=> "a" }
row(133) { :a <=> 1 }
row(134) { :b <=> :a }
row(135) { :b <=> :b }
row(136) { :b <=> "a" }
row(137) { :b <=> 1 }
row(138) { :aa <=> :a }
row(139) { :aa <=> :b }
row(140) { :aa <=> "a" }
row(141) { :aa <=> 1 }
row(142) { :a == :a }
row(143) { :a == :b }
row(144) { :a == "a" }
row(145) { :a.equal?(:a) }
row(146) { :a < :b } # not Ruby's: Symbol doesn't include Comparable
row(147) { :a.length(1) }
row(148) { :upcase.to_proc.call("a") }
row(149) { :+.to_proc.call(1, 2) }
row(150) { :upcase.to_proc.arity }
row(151) { :upcase.to_proc.lambda? }
row(152) { :nope.to_proc.call(1) } # not Ruby's: text shows the class
row(153) { %w[a b].map(&:upcase) }
row(154) { [[1, 2], [3]].map(&:length) }
row(155) { [1, 2, 3].inject(&:+) }
row(156) { proc { |a, b| [a, b] }.call }
row(157) { proc { |a, b| [a, b] }.call(1) }
row(158) { proc { |a, b| [a, b] }.call(1, 2) }
row(159) { proc { |a, b| [a, b] }.call(1, 2, 3) }
row(160) { proc { |a, b| [a, b] }.call([1, 2]) }
row(161) { proc { |a, b| [a, b] }.call([1]) }
row(162) { proc { |a, b| [a, b] }.call([1, 2], 3) }
row(163) { proc { |a, b| [a, b] }.call(nil) }
row(164) { proc { |a, b| [a, b] }.yield(5) }
row(165) { proc { |a, b| [a, b] }.(1) }
row(166) { proc { |a| a }.call }
row(167) { proc { |a| a }.call(1, 2) }
row(168) { proc { |a| a }.call([1, 2]) }
row(169) { proc { |a| a }.call([]) }
row(170) { proc { |*a| a }.call }
row(171) { proc { |*a| a }.call(1, 2) }
row(172) { proc { |*a| a }.call([1, 2]) }
row(173) { proc { |a, *b| [a, b] }.call }
row(174) { proc { |a, *b| [a, b] }.call(1, 2, 3) }
row(175) { proc { |a, *b| [a, b] }.call([1, 2, 3]) }
row(176) { proc { |a, *b| [a, b] }.call([]) }
row(177) { proc { |a, b = 5, *c, d| [a, b, c, d] }.call(1) }
row(178) { proc { |a, b = 5, *c, d| [a, b, c, d] }.call(1, 2) }
row(179) { proc { |a, b = 5, *c, d| [a, b, c, d] }.call(1, 2, 3) }
row(180) { proc { |a, b = 5, *c, d| [a, b, c, d] }.call(1, 2, 3, 4, 5) }
row(181) { proc { |a, b = 5, *c, d| [a, b, c, d] }.call([1, 2, 3, 4]) }
row(182) { proc { |a, (b, c), d| [a, b, c, d] }.call(1, [2, 3], 4) }
row(183) { proc { |a, (b, c), d| [a, b, c, d] }.call(1, 2) }
row(184) { proc { |a, (b, c), d| [a, b, c, d] }.call([1, [2], 3]) }
row(185) { proc { |a, | a }.call([1, 2]) }
row(186) { proc { |a; b| b = a; b }.call(3) }
row(187) { lambda { |a, b| [a, b] }.call(1, 2) }
row(188) { lambda { |a, b| [a, b] }.call(1) }
row(189) { lambda { |a, b| [a, b] }.call(1, 2, 3) }
row(190) { lambda { |a, b| [a, b] }.call([1, 2]) }
row(191) { lambda { |a, b = 2| [a, b] }.call(1) }
row(192) { lambda { |a, b = 2| [a, b] }.call(1, 3) }
row(193) { lambda { |a, b = 2| [a, b] }.call }
row(194) { lambda { |a, b = 2| [a, b] }.call(1, 2, 3) }
row(195) { lambda { |a, *b| [a, b] }.call(1) }
row(196) { lambda { |a, *b| [a, b] }.call(1, 2, 3) }
row(197) { lambda { |a, *b| [a, b] }.call }
row(198) { ->(x) { x * 2 }.call(3) }
row(199) { ->(x) { x * 2 }.(3) }
row(200) { ->(x) { x * 2 }[3] }
row(201) { ->(x) { x * 2 }.yield(3) }
row(202) { ->(x) { x * 2 }.call }
row(203) { -> { 1 }.call }
row(204) { -> { 1 }.call(1) }
row(205) { proc { |x| x == 1 } === 1 }
row(206) { proc { }.call }
row(207) { proc { next 5; 6 }.call }
row(208) { lambda { return 5; 6 }.call }
row(209) { lambda { break 5; 6 }.call }
row(210) { proc { || 1 }.arity }
row(211) { lambda { || 1 }.arity }
row(212) { proc { 1 }.arity }
row(213) { lambda { 1 }.arity }
row(214) { proc { |a| a }.arity }
row(215) { lambda { |a| a }.arity }
row(216) { proc { |a, b| a }.arity }
row(217) { lambda { |a, b| a }.arity }
row(218) { proc { |*a| a }.arity }
row(219) { lambda { |*a| a }.arity }
row(220) { proc { |a, *b| a }.arity }
row(221) { lambda { |a, *b| a }.arity }
row(222) { proc { |a, b = 1| a }.arity }
row(223) { lambda { |a, b = 1| a }.arity }
row(224) { proc { |a = 1| a }.arity }
row(225) { lambda { |a = 1| a }.arity }
row(226) { proc { |a, b = 1, *c, d| a }.arity }
row(227) { lambda { |a, b = 1, *c, d| a }.arity }
row(228) { proc { |(a, b), c| a }.arity }
row(229) { lambda { |(a, b), c| a }.arity }
row(230) { proc { |a, &b| a }.arity }
row(231) { lambda { |a, &b| a }.arity }
row(232) { proc { }.lambda? }
row(233) { lambda { }.lambda? }
row(234) { -> { }.lambda? }
row(235) { proc(&lambda { }).lambda? }
row(236) { lambda(&proc { }).lambda? } # not Ruby's: it makes a lambda of each block
row(237) { proc { |x| x }.to_proc.call(4) }
row(238) { proc { 1 }.inspect } # not Ruby's: objects show their class alone
row(239) { Proc.new { |x| x }.call(1) }
row(240) { Proc.new } # not Ruby's: text of a block
row(241) { returning.call }
row(242) { breaking.call }
row(243) { through }
row(244) { [1, 2].map(&proc { |x| x + 1 }) }
row(245) { [1, 2].each(&nil) } # not Ruby's: no enumerators of rows
row(246) { [[1, 2], [3, 4]].map(&lambda { |(a, b)| a + b }) }
row(247) { (n = 0; [lambda { n += 1 }, lambda { n }].tap { |a| a[0].call; a[0].call }[1].call) }
row(248) { (a = []; 3.times { |i| a << lambda { i } }; a.map { |f| f.call }) }
row(249) { StandardError.new.message }
row(250) { StandardError.new.to_s }
row(251) { StandardError.new.inspect }
row(252) { ArgumentError.new.message }
row(253) { ArgumentError.new.to_s }
row(254) { ArgumentError.new.inspect }
row(255) { KeyError.new.message }
row(256) { KeyError.new.to_s }
row(257) { KeyError.new.inspect }
row(258) { Exception.new.message }
row(259) { Exception.new.to_s }
row(260) { Exception.new.inspect }
row(261) { ArgumentError.new("own").message }
row(262) { ArgumentError.new("own").to_s }
row(263) { ArgumentError.new("own").inspect }
row(264) { ArgumentError.new("own").class }
row(265) { ArgumentError.new("").inspect }
row(266) { ArgumentError.new("a", "b") }
row(267) { Refused.new(7).message }
row(268) { Refused.new(7).code }
row(269) { Refused.new(7).inspect }
row(270) { Refused.new(7, "own other").message }
row(271) { Refused.new }
row(272) { raise Refused.new(1) }
row(273) { raise Refused, 3 }
row(274) { raise Odd }
row(275) { raise Odd, "own" }
row(276) { (begin; raise "own"; rescue => e; [e.class, e.message]; end) }
row(277) { (begin; raise Refused.new(5), "own"; rescue Refused => e; [e.class, e.message, e.code]; end) }
row(278) { (begin; e = Odd.new("own"); begin; raise e, "own other"; rescue => f; [e.message, f.message, e.equal?(f)]; end; end) }
row(279) { (begin; raise ArgumentError; rescue => e; [e.class, e.message]; end) }
row(280) { (begin; raise Refused.new(5); rescue Refused => e; e.code; end) }
row(281) { (begin; raise Odd, "own"; rescue Kin => e; e.message; end) }
row(282) { (begin; raise Odd; rescue ArgumentError, Odd => e; e.class; end) }
row(283) { (begin; raise Odd; rescue ArgumentError; 1; rescue StandardError; 2; end) }
row(284) { (begin; raise Odd; rescue ArgumentError; 1; end) }
row(285) { (begin; raise Exception, "own"; rescue StandardError; 1; end) }
row(286) { (begin; 1; rescue; 2; else; 3; ensure; 4; end) }
row(287) { (begin; raise "own"; rescue; 2; else; 3; ensure; 4; end) }
row(288) { (begin; raise "own"; rescue 5; 2; end) }
row(289) { (begin; raise "own"; rescue "a"; 2; end) }
row(290) { (begin; nowhere; rescue NameError => e; [e.name, e.class]; end) }
row(291) { (begin; 1.nowhere; rescue NoMethodError => e; e.name; end) }
row(292) { (begin; NoSuch; rescue NameError => e; e.name; end) }
row(293) { (begin; exit(3); rescue SystemExit => e; [e.status, e.message]; end) }
row(294) { (begin; exit; rescue SystemExit => e; e.status; end) }
row(295) { (begin; exit(false); rescue SystemExit => e; e.status; end) }
row(296) { (begin; begin; raise "own"; ensure; $n = 1; end; rescue; $n; end) }
row(297) { (begin; begin; raise "own"; rescue => e; raise ArgumentError, "own too"; end; rescue ArgumentError => f; [e.message, f.message]; end) }
row(298) { (begin; raise "own"; rescue => e; raise e; end) }
row(299) { (raise "own" rescue 5) }
row(300) { (Integer("x") rescue 6) }
row(301) { (x = raise "own" rescue 7) }
row(302) { (e = RuntimeError.new("own"); begin; raise e; rescue => f; e.equal?(f); end) }
row(303) { order([]) { 1 } }
row(304) { order([]) { raise ArgumentError, "own" } }
row(305) { (a = []; begin; order(a) { raise "own" }; rescue => e; a << e.message; end) }
row(306) { (a = []; [1, 2, 3].each { |x| begin; next if x == 2; a << x; ensure; a << :e; end }; a) }
row(307) { (a = []; while true; begin; break; ensure; a << 1; end; end; a) }
row(308) { retried }
row(309) { [ensured, $ensured] }
row(310) { replaced }
row(311) { 1.then { |x| raise Quiet } }
row(312) { Quiet.new.message }
row(313) { ArgumentError.new(5).message }
row(314) { ArgumentError.new(5).inspect }
row(315) { ArgumentError.new(:own).message }
row(316) { ArgumentError.new(:own).inspect }
row(317) { ArgumentError.new(true).message }
row(318) { ArgumentError.new(true).inspect }
row(319) { ArgumentError.new(false).message }
row(320) { ArgumentError.new(false).inspect }
row(321) { ArgumentError.new([1, :a]).message }
row(322) { ArgumentError.new([1, :a]).inspect }
row(323) { ArgumentError.new({1 => nil}).message }
row(324) { ArgumentError.new({1 => nil}).inspect }
row(325) { ArgumentError.new(String).message }
row(326) { ArgumentError.new(String).inspect }
row(327) { ArgumentError.new(1..2).message }
row(328) { ArgumentError.new(1..2).inspect }
row(329) { ArgumentError.new(5).to_s }
row(330) { ArgumentError.new(:own).to_s }
row(331) { ArgumentError.new(true).to_s }
row(332) { ArgumentError.new(false).to_s }
row(333) { "#{ArgumentError.new(5)}" }
row(334) { "#{ArgumentError.new(:own)}" }
row(335) { (begin; raise ArgumentError, ArgumentError.new("own"); rescue => e; [e.message, e.inspect]; end) }
row(336) { (begin; raise ArgumentError, [:own, nil]; rescue => e; e.message; end) }
