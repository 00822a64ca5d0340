# encoding: binary
# Calls with their results. Made by scripts/calls/make.rb of scripts/calls/object.rows.
module Loud
  def shout
    name.upcase + "!"
  end
end

class Animal
  attr_reader :name
  attr_accessor :age

  def initialize(name)
    @name = name
  end

  def kind
    :animal
  end

  def several(a, b = 2, *c)
    [a, b, c]
  end

  def optional(a, b = a + 1)
    [a, b]
  end

  def last(*a, b)
    [a, b]
  end

  def block(&b)
    b
  end

  def given
    block_given?
  end

  def twice
    [yield(1), yield(2)]
  end

  def <=>(other)
    name <=> other.name
  end

  protected

  def guarded
    :guarded
  end

  private

  def secret
    :secret
  end
end

class Dog < Animal
  include Loud
  LEGS = 4

  def kind
    [:dog, super]
  end

  def ask(other)
    other.guarded
  end

  def no_super
    super
  end

  def own_secret
    [secret, self.secret]
  end
end

class Ghost
  def method_missing(name, *items)
    return super if name == :real
    [name, items]
  end
end

class Plain
end

module Outer
  class Inner
    DEPTH = 2
    def scope
      DEPTH
    end
  end
end

def dog
  Dog.new("rex")
end

class Told < StandardError
  def to_s
    "own told"
  end
end

def row(number)
  value = yield
  puts "#{number} #{value.inspect}"
rescue Exception => error
  puts "#{number} #{error.class}: #{error.message}"
end

row(1) { Object.new.inspect } # not Ruby's: objects show their class alone
row(2) { Plain.new.inspect } # not Ruby's: objects show their class alone
row(3) { Plain.new.to_s } # not Ruby's: objects show their class alone
row(4) { dog.inspect } # not Ruby's: objects show their class alone
row(5) { [Plain.new].inspect } # not Ruby's: objects show their class alone
row(6) { "#{Plain.new}" } # not Ruby's: objects show their class alone
row(7) { self.to_s }
row(8) { self.inspect }
row(9) { self.class }
row(10) { 1.class }
row(11) { "a".class }
row(12) { :a.class }
row(13) { nil.class }
row(14) { true.class }
row(15) { false.class }
row(16) { [].class }
row(17) { {}.class }
row(18) { (1..2).class }
row(19) { dog.class }
row(20) { Dog.class }
row(21) { Loud.class }
row(22) { lambda { }.class }
row(23) { Object.class }
row(24) { Class.class }
row(25) { RuntimeError.new("a").class }
row(26) { dog.name }
row(27) { dog.kind }
row(28) { dog.age }
row(29) { dog.shout }
row(30) { dog.own_secret }
row(31) { dog.given }
row(32) { dog.several(1) }
row(33) { dog.several(1, 3, 4, 5) }
row(34) { dog.optional(1) }
row(35) { dog.last(1) }
row(36) { dog.last(1, 2, 3) }
row(37) { dog.block }
row(38) { dog.optional(1, 5) }
row(39) { dog.several }
row(40) { dog.optional(1, 2, 3) }
row(41) { dog.last }
row(42) { Dog.new }
row(43) { Dog.new(1, 2) }
row(44) { Object.new(1) }
row(45) { dog.name(1) }
row(46) { dog.given { 1 } }
row(47) { dog.block { 2 }.call }
row(48) { dog.twice { |x| x * 10 } }
row(49) { dog.twice }
row(50) { dog.tap { |d| d.age = 3 }.age }
row(51) { (dog.age = 4) }
row(52) { dog.ask(dog) }
row(53) { dog.guarded } # not Ruby's: text shows the class
row(54) { dog.public_send(:guarded) } # not Ruby's: text shows the class
row(55) { dog.secret } # not Ruby's: text shows the class
row(56) { dog.public_send(:secret) } # not Ruby's: text shows the class
row(57) { dog.send(:secret) }
row(58) { dog.send(:guarded) }
row(59) { dog.send("kind") }
row(60) { dog.__send__(:secret) }
row(61) { dog.__send__(:guarded) }
row(62) { dog.__send__("kind") }
row(63) { dog.send(:optional, 7) }
row(64) { dog.public_send(:optional, 7) }
row(65) { dog.__send__(:optional, 7) }
row(66) { dog.send(:nothing, 1) } # not Ruby's: text shows the class
row(67) { dog.nothing } # not Ruby's: text shows the class
row(68) { dog.nothing = 1 } # not Ruby's: text shows the class
row(69) { dog.initialize("a") } # not Ruby's: text shows the class
row(70) { dog.no_super } # not Ruby's: text shows the class
row(71) { nothing } # not Ruby's: text shows the class
row(72) { nothing() } # not Ruby's: text shows the class
row(73) { self.nothing } # not Ruby's: text shows the class
row(74) { Ghost.new.go }
row(75) { Ghost.new.go(1, 2) }
row(76) { Ghost.new.send(:go, 3) }
row(77) { Ghost.new.real } # not Ruby's: text shows the class
row(78) { dog.is_a?(Dog) }
row(79) { dog.is_a?(Animal) }
row(80) { dog.is_a?(Loud) }
row(81) { dog.is_a?(Object) }
row(82) { dog.is_a?(Kernel) }
row(83) { dog.is_a?(String) }
row(84) { dog.kind_of?(Dog) }
row(85) { dog.kind_of?(Animal) }
row(86) { dog.kind_of?(Loud) }
row(87) { dog.kind_of?(Object) }
row(88) { dog.kind_of?(Kernel) }
row(89) { dog.kind_of?(String) }
row(90) { dog.instance_of?(Dog) }
row(91) { dog.instance_of?(Animal) }
row(92) { dog.instance_of?(Loud) }
row(93) { dog.instance_of?(Object) }
row(94) { dog.instance_of?(Kernel) }
row(95) { dog.instance_of?(String) }
row(96) { Dog === dog }
row(97) { Animal === dog }
row(98) { Loud === dog }
row(99) { Object === dog }
row(100) { String === dog }
row(101) { 1.nil? }
row(102) { nil.nil? }
row(103) { dog.nil? }
row(104) { dog.respond_to?(:name) }
row(105) { dog.respond_to?("kind") }
row(106) { dog.respond_to?(:secret) }
row(107) { dog.respond_to?(:guarded) }
row(108) { dog.respond_to?(:nothing) }
row(109) { dog.respond_to?(:shout) }
row(110) { dog.respond_to?(:initialize) }
row(111) { dog.respond_to?(:age=) }
row(112) { dog == 1 }
row(113) { dog != 1 }
row(114) { dog === 1 }
row(115) { 1 == 1 }
row(116) { 1 != 1 }
row(117) { 1 === 1 }
row(118) { nil == 1 }
row(119) { nil != 1 }
row(120) { nil === 1 }
row(121) { dog == dog }
row(122) { dog.tap { |d| d == d }.equal?(nil) }
row(123) { dog.then { |d| [d == d, d.equal?(d), d === d, d != d, d <=> d] } }
row(124) { Plain.new.then { |o| [o <=> o, o <=> 1, o == o, o == Plain.new, !o, o === o] } }
row(125) { !dog }
row(126) { dog.! }
row(127) { 1.equal?(1) }
row(128) { 1.equal?(:a) }
row(129) { 1.equal?(nil) }
row(130) { 1.equal?(true) }
row(131) { :a.equal?(1) }
row(132) { :a.equal?(:a) }
row(133) { :a.equal?(nil) }
row(134) { :a.equal?(true) }
row(135) { nil.equal?(1) }
row(136) { nil.equal?(:a) }
row(137) { nil.equal?(nil) }
row(138) { nil.equal?(true) }
row(139) { true.equal?(1) }
row(140) { true.equal?(:a) }
row(141) { true.equal?(nil) }
row(142) { true.equal?(true) }
row(143) { "a".equal?("a") }
row(144) { dog.dup.name }
row(145) { dog.clone.kind }
row(146) { dog.tap { |d| d.dup.age = 5 }.age }
row(147) { dog.tap { |d| d.age = [1] }.dup.tap { |d| d.age << 2 }.age }
row(148) { dog.instance_variables }
row(149) { dog.tap { |d| d.age = 1 }.instance_variables }
row(150) { dog.instance_variable_get(:@name) }
row(151) { dog.instance_variable_get("@name") }
row(152) { dog.instance_variable_get(:@none) }
row(153) { dog.tap { |d| d.instance_variable_set(:@name, 5) }.name }
row(154) { dog.instance_variable_set("@x", 6) }
row(155) { 1.instance_variable_get(:@a) }
row(156) { 1.instance_variable_set(:@a, 1) } # not Ruby's: these have no variables
row(157) { :a.instance_variable_set(:@a, 1) } # not Ruby's: these have no variables
row(158) { nil.instance_variable_set(:@a, 1) } # not Ruby's: these have no variables
row(159) { true.instance_variable_set(:@a, 1) } # not Ruby's: these have no variables
row(160) { 1.dup }
row(161) { 1.clone }
row(162) { 1.freeze }
row(163) { nil.dup }
row(164) { nil.clone }
row(165) { nil.freeze }
row(166) { :a.dup }
row(167) { :a.clone }
row(168) { :a.freeze }
row(169) { dog.freeze.tap { |d| d.age = 9 }.age } # not Ruby's: freeze has no effect
row(170) { dog.then { |d| d.name + "?" } }
row(171) { dog.then { |d| break 5 } }
row(172) { Plain.new.tap { |o| def o.one; 1; end }.one }
row(173) { Plain.new.tap { |o| def o.one; 1; end }.dup.one } # not Ruby's: text shows the class
row(174) { Plain.new.tap { |o| o.extend(Loud) }.is_a?(Loud) }
row(175) { dog.extend(Loud).shout }
row(176) { 1.singleton_class }
row(177) { :a.singleton_class }
row(178) { nil.singleton_class } # not Ruby's: these have no singleton class
row(179) { true.singleton_class } # not Ruby's: these have no singleton class
row(180) { Dog.name }
row(181) { Dog.to_s }
row(182) { Dog.inspect }
row(183) { Animal.name }
row(184) { Animal.to_s }
row(185) { Animal.inspect }
row(186) { Outer.name }
row(187) { Outer.to_s }
row(188) { Outer.inspect }
row(189) { Outer::Inner.name }
row(190) { Outer::Inner.to_s }
row(191) { Outer::Inner.inspect }
row(192) { Object.name }
row(193) { Object.to_s }
row(194) { Object.inspect }
row(195) { Class.name }
row(196) { Class.to_s }
row(197) { Class.inspect }
row(198) { Class.new.name }
row(199) { Class.new.to_s } # not Ruby's: a class without a name
row(200) { Class.new.inspect } # not Ruby's: a class without a name
row(201) { Module.new.to_s } # not Ruby's: a module without a name
row(202) { Module.new.inspect } # not Ruby's: a module without a name
row(203) { Class.new } # not Ruby's: a class without a name
row(204) { Class.new(Dog).new("a").name }
row(205) { Class.new(Dog).new("a").kind }
row(206) { Class.new(Dog).superclass }
row(207) { Class.new(5) } # not Ruby's: text of a superclass
row(208) { Dog < Dog }
row(209) { Dog < Animal }
row(210) { Dog < Loud }
row(211) { Dog < String }
row(212) { Dog < Object }
row(213) { Dog <= Dog }
row(214) { Dog <= Animal }
row(215) { Dog <= Loud }
row(216) { Dog <= String }
row(217) { Dog <= Object }
row(218) { Animal < Dog }
row(219) { Dog.superclass }
row(220) { Animal.superclass }
row(221) { Class.superclass }
row(222) { Module.superclass }
row(223) { Integer.superclass }
row(224) { Exception.superclass }
row(225) { StandardError.superclass }
row(226) { ScriptError.superclass }
row(227) { NotImplementedError.superclass }
row(228) { SystemExit.superclass }
row(229) { SystemStackError.superclass }
row(230) { ArgumentError.superclass }
row(231) { FiberError.superclass }
row(232) { IndexError.superclass }
row(233) { KeyError.superclass }
row(234) { StopIteration.superclass }
row(235) { LocalJumpError.superclass }
row(236) { NameError.superclass }
row(237) { NoMethodError.superclass }
row(238) { RangeError.superclass }
row(239) { RuntimeError.superclass }
row(240) { TypeError.superclass }
row(241) { ZeroDivisionError.superclass }
row(242) { Object.superclass } # not Ruby's: Object is the root
row(243) { Dog.ancestors } # not Ruby's: Object is the root
row(244) { Integer.ancestors } # not Ruby's: Object is the root, no Comparable
row(245) { String.ancestors.include?(Object) }
row(246) { String.ancestors.include?(Kernel) }
row(247) { String.ancestors.include?(Numeric) }
row(248) { Array.ancestors.include?(Object) }
row(249) { Array.ancestors.include?(Kernel) }
row(250) { Array.ancestors.include?(Numeric) }
row(251) { Hash.ancestors.include?(Object) }
row(252) { Hash.ancestors.include?(Kernel) }
row(253) { Hash.ancestors.include?(Numeric) }
row(254) { Range.ancestors.include?(Object) }
row(255) { Range.ancestors.include?(Kernel) }
row(256) { Range.ancestors.include?(Numeric) }
row(257) { Class.ancestors } # not Ruby's: Object is the root
row(258) { Loud.ancestors }
row(259) { Dog.method_defined?(:kind) }
row(260) { Dog.method_defined?("name") }
row(261) { Dog.method_defined?(:guarded) }
row(262) { Dog.method_defined?(:secret) }
row(263) { Dog.method_defined?(:nothing) }
row(264) { Dog.method_defined?(:shout) }
row(265) { Dog.const_get(:LEGS) }
row(266) { Dog.const_get("LEGS") }
row(267) { Dog.const_defined?(:LEGS) }
row(268) { Dog.const_defined?(:ARMS) }
row(269) { Dog.allocate.name }
row(270) { Dog::LEGS }
row(271) { Dog::ARMS }
row(272) { ARMS }
row(273) { Outer::Nope }
row(274) { Outer::Inner::Nope }
row(275) { Object.const_get(:Nope) }
row(276) { Dog.const_get(:Nope) }
row(277) { Outer::Inner.new.scope }
row(278) { Outer.const_get("Inner") }
row(279) { Outer.const_set(:MORE, 3) }
row(280) { (Outer.const_set(:MOST, 4); Outer::MOST) }
row(281) { Object.const_defined?(:Dog) }
row(282) { Integer.new } # not Ruby's: text shows the class
row(283) { Symbol.new } # not Ruby's: text shows the class
row(284) { NilClass.new } # not Ruby's: text shows the class
row(285) { TrueClass.new } # not Ruby's: text shows the class
row(286) { Numeric.new } # not Ruby's: text shows the class
row(287) { Integer.allocate } # not Ruby's: these have none
row(288) { Class.allocate } # not Ruby's: these have none
row(289) { Proc.allocate } # not Ruby's: these have none
row(290) { Range.allocate } # not Ruby's: these have none
row(291) { Loud.new } # not Ruby's: text shows the class
row(292) { Class.new.then { |c| [c.attr_reader(:a, "b"), c.attr_writer(:a), c.attr_accessor(:c), c.define_method(:d) { 1 }] } }
row(293) { Class.new.tap { |c| c.define_method(:d) { |x| x + 1 } }.new.d(1) }
row(294) { Class.new.tap { |c| c.define_method(:d) { |x| x } }.new.d }
row(295) { Class.new(Animal).tap { |c| c.alias_method(:kin, :kind) }.new("a").kin }
row(296) { Class.new(Dog).tap { |c| c.undef_method(:kind) }.new("a").respond_to?(:kind) }
row(297) { Class.new(Dog).tap { |c| c.define_method(:kind) { 1 } }.tap { |c| c.remove_method(:kind) }.new("a").kind }
row(298) { Class.new(Dog).tap { |c| c.define_method(:kind) { 1 } }.tap { |c| 2.times { c.remove_method(:kind) } } } # not Ruby's: text shows a class without a name
row(299) { Class.new(Dog).tap { |c| c.define_method(:late) { 1 } }.tap { |c| c.remove_method(:late) }.new("a").late } # not Ruby's: text shows the class
row(300) { Class.new(Animal).then { |c| d = Class.new(c); d.define_method(:kind) { 1 }; d.remove_method(:kind); c.define_method(:kind) { 2 }; d.new("a").kind } }
row(301) { Plain.dup.then { |c| [c.name, c == Plain, c.superclass, c.ancestors.include?(Plain), c.new.is_a?(Plain)] } }
row(302) { Dog.dup.then { |c| [c.name, c.new("a").kind, c::LEGS, c.superclass, c.method_defined?(:guarded), c.method_defined?(:secret)] } }
row(303) { Dog.clone.then { |c| [c.name, c.new("a").kind, c::LEGS, c.superclass, c.method_defined?(:guarded), c.method_defined?(:secret)] } }
row(304) { Dog.dup.then { |c| c.define_method(:kind) { 1 }; [c.new("a").kind, Dog.new("a").kind] } }
row(305) { Dog.dup.then { |c| c.include(Loud, Comparable); c.ancestors.include?(Loud) && c.new("a").shout } }
row(306) { Loud.dup.then { |m| [m.name, m == Loud, Class.new(Animal).include(m).new("a").shout] } }
row(307) { (1..3).then { |r| [r.dup == r, r.dup.equal?(r), r.clone.to_a, ("a"..."c").dup] } }
row(308) { proc { |a| a }.then { |f| [f.dup.equal?(f), f.dup.call(4), f.dup.lambda?, f.clone.arity] } }
row(309) { lambda { |a| a }.then { |f| [f.dup.equal?(f), f.clone.lambda?, f.dup.call(1)] } }
row(310) { :upcase.to_proc.then { |f| [f.dup.equal?(f), f.dup.call("a"), f.clone.lambda?] } }
row(311) { Fiber.new { |a| Fiber.yield a; 2 }.then { |f| [f.resume(1), f.dup.resume(3), f.resume, f.clone.alive?] } } # not Ruby's: Ruby copies no fiber
row(312) { Class.new.tap { |c| c.include(Loud, Comparable) }.ancestors.length } # not Ruby's: Object is the root
row(313) { Class.new.define_method(:d) } # not Ruby's: text of a block
row(314) { (class Dog; LEGS; end) }
row(315) { (class Dog; self; end) }
row(316) { (class Dog; def more; 1; end; end) }
row(317) { (class Dog < String; end) }
row(318) { (begin; class Loud; end; rescue TypeError => e; e.message.split("\n")[0]; end) }
row(319) { (begin; module Dog; end; rescue TypeError => e; e.message.split("\n")[0]; end) }
row(320) { (class Later < 5; end) } # not Ruby's: text of a superclass
row(321) { (class Dog; alias other_kind no_kind; end) } # not Ruby's: text of quotes
row(322) { (class Dog; private :no_kind; end) } # not Ruby's: text of quotes
row(323) { (class Dog; undef no_kind; end) } # not Ruby's: text of quotes
row(324) { (class Dog; def extra; 1; end; private :extra; end) } # not Ruby's: these methods give nil
row(325) { (class Dog; public; end) }
row(326) { (class << Plain; def made; :made; end; end) }
row(327) { (class << Plain; def made_too; :made_too; end; end; Plain.made_too) }
row(328) { p }
row(329) { p(1) }
row(330) { p(1, [2]) }
row(331) { puts }
row(332) { puts(1, [2, [nil, "a\n"]], :b) }
row(333) { puts([]) }
row(334) { print("a", 1, nil, "\n") }
row(335) { gets }
row(336) { raise } # not Ruby's: text of a raise
row(337) { raise "own" }
row(338) { raise ArgumentError }
row(339) { raise TypeError }
row(340) { raise KeyError }
row(341) { raise ArgumentError, "own" }
row(342) { raise ArgumentError.new("own") }
row(343) { raise 5 } # not Ruby's: text of a raise
row(344) { raise Object } # not Ruby's: text of a raise
row(345) { raise nil } # not Ruby's: text of a raise
row(346) { loop { break 5 } }
row(347) { loop { raise StopIteration } }
row(348) { loop } # not Ruby's: no enumerators of rows
row(349) { lambda } # not Ruby's: text of a block
row(350) { proc } # not Ruby's: text of a block
row(351) { exit }
row(352) { exit(3) }
row(353) { exit(true) }
row(354) { exit(false) }
row(355) { exit(256) } # not Ruby's: text of a status
row(356) { Integer("12") }
row(357) { Integer("-12") }
row(358) { Integer("+12") }
row(359) { Integer("0") }
row(360) { Integer(7) }
row(361) { Integer("007") }
row(362) { Integer("010") } # not Ruby's: decimal digits alone
row(363) { Integer(" 5") } # not Ruby's: decimal digits alone
row(364) { Integer("0x1F") } # not Ruby's: decimal digits alone
row(365) { Integer("1_000") } # not Ruby's: decimal digits alone
row(366) { Integer("5\n") } # not Ruby's: decimal digits alone
row(367) { Integer("") } # not Ruby's: text of a value
row(368) { Integer("abc") } # not Ruby's: text of a value
row(369) { Integer("12a") } # not Ruby's: text of a value
row(370) { Integer("-") } # not Ruby's: text of a value
row(371) { Integer("1 2") } # not Ruby's: text of a value
row(372) { Integer("9223372036854775808") } # not Ruby's: 64 bits
row(373) { [defined?(puts), defined?(nothing), defined?(String), defined?(Nope), defined?(@a), defined?($a), defined?(self), defined?(a = 1), defined?(1)] }
row(374) { (def self.deep(n); deep(n + 1); end; deep(0)) }
row(375) { Told.new("own kept").message }
row(376) { Told.new("own kept").to_s }
row(377) { Told.new("own kept").inspect }
row(378) { Told.new.message }
row(379) { raise Told, "own kept" }
row(380) { raise Told.new("own kept"), "own new" }
row(381) { nope? } # not Ruby's: text of a missing method
row(382) { nope! } # not Ruby's: text of a missing method
row(383) { f = Fiber.new { 1 }; class << f; def again; singleton_class.new { 2 }; end; end; f.again } # not Ruby's: text of a singleton class
