# Ruby's PStore with `ultra_safe`: a transaction for each key. The words are those of stores.c.
require "pstore"

_, path, command, operations, keys, acknowledged = ARGV
store = PStore.new(path)
store.ultra_safe = true
case command
when "make" then store.transaction { store["none"] = "" }
when "work"
  File.open(acknowledged, "a") do |file|
    (1..operations.to_i).each do |number|
      value = "#{number}:" + (97 + number % 26).chr * (number * 37 % 900)
      store.transaction { store[(number % keys.to_i).to_s] = value }
      file.syswrite("#{number}\n")
    end
  end
when "list"
  store.transaction(true) { store.roots.each { |key| puts "#{key}|#{store[key]}" unless key == "none" } }
  puts "end"
end
