# `yield` with white space on both sides of an operator, or directly before `[`, goes on with its value.
def plus; yield + 1; end
def times; x = yield * 2; x; end
def item; yield[0]; end
def half; yield / 2; end
def minus; yield - 1; end
def both; yield & 6; end
def pass; yield -1; end
def list; yield [0]; end
p plus { 41 }
p times { 21 }
p item { [7, 8] }
p half { 9 }
p minus { 9 }
p both { 12 }
p pass { |x| x }
p list { |x| x }
