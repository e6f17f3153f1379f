# read_cfpropertylist.rb FILE [parse]: reads FILE with the Ruby gem CFPropertyList and prints its value as plist_value.py
# spells it, or nothing with the word `parse`.
# The exit status is 1 if the gem refuses the file with an error of its own, and 2 if it raises another.
require "cfpropertylist"

NODES = 4000
DEPTH = 200
TO_2001 = 978_307_200
$nodes = 0

def hex(text)
  text.dup.force_encoding("BINARY").unpack1("H*")
end

def utf8(text)
  text.encoding == Encoding::BINARY ? text : text.encode("UTF-8")
rescue EncodingError
  text
end

def key_of(key)
  key.is_a?(String) ? hex(utf8(key)) : key.inspect
end

def spell(value, depth = 0)
  $nodes += 1
  throw :large if $nodes > NODES || depth > DEPTH
  case value
  when nil then "null"
  when CFPropertyList::CFBoolean then value.value ? "true" : "false"
  when CFPropertyList::CFUid then "uid #{value.value}"
  when CFPropertyList::CFInteger then "int #{value.value}"
  when CFPropertyList::CFReal then value.value.nan? ? "real nan" : "real #{[value.value].pack('G').unpack1('H*')}"
  when CFPropertyList::CFDate then "date #{(value.value.to_r - TO_2001).floor}"
  when CFPropertyList::CFData then "data #{hex(value.decoded_value)}"
  when CFPropertyList::CFString then "text #{hex(utf8(value.value))}"
  when CFPropertyList::CFArray then "array(#{value.value.map { |member| spell(member, depth + 1) }.join(',')})"
  when CFPropertyList::CFDictionary
    pairs = value.value.map { |key, member| "#{key_of(key)}=#{spell(member, depth + 1)}" }
    "dict(#{pairs.sort.join(',')})"
  else "other #{value.class}"
  end
end

begin
  value = CFPropertyList::List.new(data: File.binread(ARGV[0]), format: CFPropertyList::List::FORMAT_BINARY).value
rescue CFPlistError, CFFormatError, CFTypeError => error
  $stderr.puts "#{error.class}: #{error.message}"
  exit 1
rescue Exception => error # rubocop:disable Lint/RescueException
  $stderr.puts "#{error.class}: #{error.message}"[0, 200]
  exit 2
end
puts(catch(:large) { spell(value) } || "large") if ARGV.size == 1
