# A bank whose accounts raise exceptions of their own and whose transfers are undone by ensure.
class BankError < StandardError
  def initialize(account = nil, message = "bank error")
    super(message)
    @account = account
  end

  attr_reader :account
end

class Insufficient < BankError
  attr_reader :missing

  def initialize(account, missing)
    @missing = missing
    super(account, "#{account.owner} lacks #{missing}")
  end
end

class Locked < BankError
  def message
    "#{account.owner} is locked"
  end
end

class Account
  @count = 0

  class << self
    attr_reader :count

    def open(*arguments)
      @count = (@count || 0) + 1
      new(*arguments)
    end

    private :new
  end

  include Comparable
  attr_reader :owner, :balance, :history
  attr_writer :locked

  def initialize(owner, balance = 0)
    @owner, @balance, @locked = owner, balance, false
    @history = []
  end

  def <=>(other) balance <=> other.balance end

  def locked?; @locked; end

  def deposit(amount)
    raise ArgumentError, "amount is #{amount}" unless amount > 0
    raise Locked.new(self) if locked?
    record :in, amount
    @balance += amount
  end

  def withdraw(amount)
    raise Locked.new(self) if locked?
    raise Insufficient.new(self, amount - balance) if amount > balance
    record :out, amount
    @balance -= amount
  end

  def to_s
    "#{owner}: #{balance}"
  end

  protected

  def restore(balance, size)
    @balance = balance
    history.pop while history.size > size
  end

  def mark
    [balance, history.size]
  end

  private

  def record(kind, amount)
    history << [kind, amount]
  end

  public

  def transfer(amount, to)
    mine, theirs = mark, to.mark
    done = false
    withdraw amount
    to.deposit amount
    done = true
  ensure
    unless done
      restore(*mine)
      to.restore(*theirs)
    end
  end
end

class Savings < Account
  def initialize(owner, balance = 0, rate = 5)
    super(owner, balance)
    @rate = rate
  end

  def interest!
    deposit balance * @rate / 100
  end

  def withdraw(amount)
    fee = amount > 500 ? 10 : 0
    super(amount + fee)
  rescue Insufficient => error
    raise error if fee.zero?
    super(amount)
    :waived
  end
end

class Bank
  def initialize; @accounts = {} end

  def open(kind, owner, *rest)
    @accounts[owner] = kind.open(owner, *rest)
  end

  def [](owner)
    @accounts.fetch(owner)
  end

  def attempt(label)
    result = yield self
  rescue Locked => error
    puts "#{label}: locked (#{error.message})"
    error.account.locked = false
    retry
  rescue Insufficient, ArgumentError => error
    puts "#{label}: #{error.class}, #{error.message}"
    :failed
  rescue KeyError
    puts "#{label}: no such account"
  else
    puts "#{label}: #{result.inspect}"
    :done
  ensure
    @attempts = (@attempts || 0) + 1
  end

  attr_reader :attempts

  def report
    @accounts.each_value { |account| puts account }
  end
end

bank = Bank.new
bank.open(Account, "Ann", 100)
bank.open(Account, "Bob")
bank.open Savings, "Cleo", 1000, 7

p bank.attempt("one") { |b| b["Ann"].deposit 50 }
p bank.attempt("two") { |b| b["Ann"].withdraw 500 }
p bank.attempt("three") { |b| b["Zed"].deposit(1) }
p bank.attempt("four") { |b| b["Bob"].deposit(-1) }
bank["Bob"].locked = true
bank.attempt("five") { |b| b["Ann"].transfer(70, b["Bob"]) }
bank["Bob"].locked = true
begin
  bank["Ann"].transfer(30, bank["Bob"])
rescue BankError => error
  puts "undone: #{error.message}"
end
p bank["Ann"].history, bank["Bob"].history
bank["Cleo"].interest!
bank.attempt("six") { |b| b["Cleo"].withdraw(600) }
bank.attempt("seven") { |b| b["Cleo"].withdraw(465) }
bank.attempt("eight") do |b|
  b["Cleo"].withdraw 505
end
bank.report
puts bank.attempts, Account.count, Savings.count.inspect
puts [bank["Ann"], bank["Cleo"]].map { |a| a > bank["Bob"] }.inspect

begin
  bank["Ann"].restore(1, 1)
rescue NoMethodError => error
  puts error.name.inspect
end

def steps
  yield 1
  puts "between"
  yield 2
ensure
  puts "cleared"
end

steps { |n| break if n == 2; puts n }
value = [3, 2, 1, 0].map { |n| (6 / n rescue "none") }
p value
nested = begin
  begin
    raise "inner"
  ensure
    puts "first"
  end
rescue => @last
  @last.message + "!"
end
puts nested, @last.inspect
